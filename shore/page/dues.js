// Dues on an answer (document 02, E6): a tariff edited in place, a question about ships and draughts, and what each of them owes. What a tariff may be and
// what is owed is the engine's word.

// Behind the tariff: no typed text has it.
const TARIFF_END = '\x1c';

// The papers' limit, by which the button ends; what is beyond it is refused by the engine.
const MOST_STEPS = 16;

const charging = new Engine();
// Upper draught and rate of each step, and the minimum, as they are typed.
let tariff = { steps: [], minimum: '' };
let chargedOf = 0;

function tariffText() { return [...tariff.steps.map(step => step.join(CELL_END)), tariff.minimum].join('\n') + TARIFF_END; }

function setTariff(given) {
  tariff = given;
  showTariff();
  chargeShips();
}

function tariffField(holder, key, label) {
  const made = element('input', { value: holder[key], spellcheck: false, autocomplete: 'off' });
  made.setAttribute('aria-label', label);
  made.oninput = () => {
    holder[key] = made.value.trim();
    chargeShips();
  };
  return made;
}

function showTariff() {
  const { steps } = tariff;
  const rows = steps.map((step, place) => element('tr', { className: 'step' },
    ...['Upper draught', 'Rate'].map((what, key) => element('td', {}, tariffField(step, key, `${what} of step ${place + 1}`))),
    element('td', { className: 'ends' }, action('×', `Take step ${place + 1} away`,
      () => setTariff({ ...tariff, steps: steps.filter(each => each !== step) })))));
  const head = ['up to cm', 'cents per metre begun'].map(textContent => element('th', { textContent }));
  const least = element('tr', { className: 'minimum' }, element('th', { textContent: 'at least' }),
    element('td', {}, tariffField(tariff, 'minimum', 'Minimum charge in cents')));
  byId('tariff').replaceChildren(element('table', {}, element('tr', {}, ...head), ...rows, least));
  byId('add-step').disabled = steps.length >= MOST_STEPS;
}

// Marks what was found wrong: {step, cell}, the cell being the upper draught or the rate; a minimum is behind the last step.
function markTariff(fault) {
  for (const cell of byId('tariff').querySelectorAll('td.wrong')) cell.classList.remove('wrong');
  if (fault?.step !== undefined) byId('tariff').querySelectorAll('.step, .minimum')[fault.step]?.querySelectorAll('td')[fault.cell]?.classList.add('wrong');
}

// Asks what is owed, where the panel is shown.
async function chargeShips() {
  if (byId('dues-panel').hidden) return;
  const mine = ++chargedOf;
  const question = byId('dues-question'), said = byId('dues-said');
  fitHeight(question);
  underline(byId('dues-under'), question.value, null);
  if (charging.busy) charging.end();
  const reply = await charging.ask('dues', storedText() + tariffText() + question.value);
  if (mine !== chargedOf) return;
  byId('dues').replaceChildren();
  byId('dues-words').textContent = '';
  markTariff(reply.fault);
  if (reply.number !== 0) return showFault(said, reply.fault.step === undefined ? byId('dues-under') : null, question.value, reply);
  if (!reply.same) {
    said.className = 'said bad';
    said.textContent = 'The dues of each ship alone are not those of all. Do not use them, and tell whoever keeps the engine.';
    return;
  }
  const rows = element('table', {}, element('tr', {}, ...reply.names.map(textContent => element('th', { textContent }))));
  appendRows(rows, reply.rows, row => element('tr', {}, ...row.map(textContent => element('td', { textContent }))), SHOWN);
  said.className = 'said good';
  said.textContent = `${counted(reply.count, 'row')} charged, together ${number(reply.together)} cents; the tariff has ${counted(reply.bytes, 'byte')}.`;
  byId('dues').replaceChildren(rows);
  byId('dues-words').textContent = reply.words;
}

// The example's ships, in place of a table that is called so.
function putExampleShips() {
  const { ships } = EXAMPLES;
  const place = tables.findIndex(({ name }) => name === ships.name);
  const table = newTable(ships.name, ships.collection, ships.columns, ships.rows.map(row => [...row]));
  if (place >= 0) tables[place] = { ...table, number: tables[place].number };
  else if (tables.length < MOST.tables) tables.push(table);
  setTables(tables);
}

function startDues() {
  const question = byId('dues-question');
  question.value = EXAMPLES.shipsQuestion;
  question.oninput = () => {
    typing(question);
    chargeShips();
  };
  byId('add-step').onclick = () => {
    const last = tariff.steps.at(-1) ?? ['0', '0'];
    setTariff({ ...tariff, steps: [...tariff.steps, [String(Number(last[0]) + 100), last[1]]] });
  };
  byId('example-ships').onclick = putExampleShips;
  setTariff({ steps: EXAMPLES.tariff.steps.map(step => [...step]), minimum: EXAMPLES.tariff.minimum });
}
