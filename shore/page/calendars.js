// The calendars, edited in place: a name, and hours as they are typed in the shell. Below them is a minute, by its date or its number; of each calendar the
// engine says whether it is open then, and when it opens.

const clock = new Engine();

let calendars = [];
let toldOf = 0;

function calendarsText() { return calendars.map(({ name, hours }) => name + CELL_END + hours + CALENDAR_END).join(''); }

// What the module is given ahead of a question.
function storedText() { return calendarsText() + tablesText(); }

function setCalendars(given) {
  calendars = given;
  showCalendars();
  storedChanged();
}

function showCalendars() {
  byId('calendars').replaceChildren(...calendars.map(calendarElement));
  byId('add-calendar').disabled = calendars.length >= MOST.calendars;
  for (const hours of byId('calendars').querySelectorAll('textarea')) fitHeight(hours);
}

function calendarElement(calendar, place) {
  const hours = field(calendar, 'hours', `Hours of ${calendar.name}`, 'hours', 'textarea');
  hours.rows = 1;
  hours.addEventListener('input', () => fitHeight(hours));
  const top = element('div', { className: 'top' }, field(calendar, 'name', 'Name of the calendar', 'name'),
    element('span', { className: 'no', textContent: `no. ${place}` }),
    action('×', `Take ${calendar.name} away`, () => setCalendars(calendars.filter(each => each !== calendar))));
  return element('div', { className: 'table calendar' }, top, hours, element('p', { className: 'small' }));
}

// Marks what the module found wrong: {calendar, name}.
function markCalendar(fault) {
  if (!fault || fault.calendar === undefined) return;
  byId('calendars').children[fault.calendar].querySelector(fault.name ? 'input.name' : 'textarea').classList.add('wrong');
}

// What each calendar is at the minute that is typed; nothing while calendars are wrong.
async function tellHours() {
  const mine = ++toldOf;
  const reply = await clock.ask('hours', calendarsText() + byId('moment').value.trim());
  if (mine !== toldOf) return;
  byId('moment-said').textContent = reply.moment;
  byId('moment-said').className = reply.wrong ? 'small bad' : 'small';
  calendars.forEach((calendar, place) => {
    byId('calendars').children[place].querySelector('p').textContent = reply.calendars[place] ?? '';
  });
}

function startCalendars() {
  byId('add-calendar').onclick = () => {
    let number = calendars.length;
    while (calendars.some(({ name }) => name === `calendar${number}`)) number++;
    setCalendars([...calendars, { name: `calendar${number}`, hours: 'Mon-Fri 08:00-16:00' }]);
  };
  byId('moment').oninput = tellHours;
}
