// Outages counted (document 02, E12): a table is chosen whose rows may be out, and over every subset of them a question that is a some or an all is answered.
// The counts are the engine's word.

const counting = new Engine();
// What was chosen by hand; until then the last table stands there that is short enough.
let pickedOut = null;
let countedOf = 0;

// The papers' limit, by which the first choice goes; what is beyond it is refused by the engine.
const MOST_OUT = 12;

function tableOut() {
  const short = tables.filter(table => table.rows.length <= MOST_OUT);
  return tables.includes(pickedOut) ? pickedOut : short.at(-1) ?? tables[0];
}

function showOutChoices() {
  byId('out-table').replaceChildren(...tables.map(table =>
    element('option', { textContent: `${table.name}, ${counted(table.rows.length, 'row')}`, selected: table === tableOut() })));
}

// Asks for the counts, where the panel is shown.
async function countOutages() {
  if (byId('outages-panel').hidden) return;
  const mine = ++countedOf;
  const question = byId('outages-question'), said = byId('outages-said');
  showOutChoices();
  fitHeight(question);
  underline(byId('outages-under'), question.value, null);
  if (counting.busy) counting.end();
  const reply = await counting.ask('outages', `${storedText()}${tableOut()?.number ?? '0'}${CELL_END}${question.value}`);
  if (mine !== countedOf) return;
  byId('outages').replaceChildren();
  if (reply.number !== 0) return showFault(said, byId('outages-under'), question.value, reply);
  const subsets = reply.counts[0] + reply.counts[1];
  said.className = 'said good';
  said.textContent = `${counted(subsets, 'subset')} of the rows of ${tableOut().name}, the others being out.`;
  byId('outages').replaceChildren(...reply.counts.map((count, place) => countElement(['true', 'false'][place], count, subsets)));
}

// A bar as long as its share of all subsets.
function countElement(name, count, of) {
  const share = 100 * count / of;
  const bar = element('span', { className: `bar ${name}` });
  bar.style.width = `${share}%`;
  return element('div', { className: 'count' }, element('b', { textContent: name }), element('span', { className: 'no', textContent: number(count) }),
    element('span', { className: 'room' }, bar), element('span', { className: 'share', textContent: `${share.toFixed(1)} %` }));
}

// The example's tugs, in place of a table that is called so; they are chosen.
function putExampleTugs() {
  const { tugs } = EXAMPLES;
  const place = tables.findIndex(({ name }) => name === tugs.name);
  const table = newTable(tugs.name, tugs.collection, tugs.columns, tugs.rows.map(row => [...row]));
  if (place >= 0) tables[place] = { ...table, number: tables[place].number };
  else if (tables.length < MOST.tables) tables.push(table);
  pickedOut = tables.find(({ name }) => name === tugs.name);
  setTables(tables);
}

function startOutages() {
  const question = byId('outages-question');
  question.value = EXAMPLES.tugsQuestion;
  question.oninput = () => {
    typing(question);
    countOutages();
  };
  byId('out-table').onchange = () => {
    pickedOut = tables[byId('out-table').selectedIndex];
    countOutages();
  };
  byId('example-tugs').onclick = putExampleTugs;
}
