// The page's start: tabs, and who is told when tables or calendars change. A new step of the desk is a tab and a panel in page.html, a file like seats.js,
// and a line here.

function byId(id) { return document.getElementById(id); }

function startTabs() {
  const tabs = [...byId('tabs').children];
  const open = chosen => {
    tabs.forEach(tab => {
      tab.setAttribute('aria-selected', String(tab === chosen));
      tab.tabIndex = tab === chosen ? 0 : -1;
      byId(tab.getAttribute('aria-controls')).hidden = tab !== chosen;
    });
    chargeShips();
    countOutages();
    pairLogs();
  };
  tabs.forEach((tab, place) => {
    tab.onclick = () => open(tab);
    tab.onkeydown = event => {
      const step = { ArrowLeft: -1, ArrowRight: 1 }[event.key];
      if (!step) return;
      const next = tabs[(place + step + tabs.length) % tabs.length];
      open(next);
      next.focus();
    };
  });
  open(tabs[0]);
}

function start() {
  startTabs();
  startTables(looking);
  startCalendars();
  startQuestion();
  startSeats();
  startDues();
  startOutages();
  startLogs();
  storedChanged = () => {
    byId('shuffled').hidden = true;
    tellHours();
    storedChangedAtSeats();
    chargeShips();
    countOutages();
    pairLogs();
    ask();
  };
  calendars = EXAMPLES.calendars;
  showCalendars();
  setTables(EXAMPLES.tables.map((table, place) => newTable(table.name, table.collection, table.columns, table.rows, { number: String(place) })));
  byId('question').focus();
}

start();
