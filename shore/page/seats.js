// Four seats that share one engine by rounds (document 02, E8). Each has a question, a scratch and an answer buffer in the module; tables and calendars are
// those of the first question that was begun, and a change of them gives all questions up.

const SEATS = 4, ROUNDS_SHOWN = 40, SLOW_ROUNDS = 20, SLOW = 90;

const rota = new Engine();
let seats = [];
let rounds = 0;
let running = false;

function seatElement(place) {
  const seat = { place, rows: 0, since: 0 };
  seat.question = element('textarea', { rows: 2, spellcheck: false, value: EXAMPLES.questions[place % EXAMPLES.questions.length][1] });
  seat.question.setAttribute('aria-label', `Question at seat ${place + 1}`);
  seat.under = element('pre');
  seat.under.setAttribute('aria-hidden', 'true');
  seat.quota = element('input', { type: 'number', min: 1, max: 1000, value: [1, 2, 3, 10][place] });
  seat.said = element('p', { className: 'said', textContent: 'No question is unfinished here.' });
  seat.said.setAttribute('role', 'status');
  seat.answer = element('div');
  const asks = element('button', { textContent: 'Ask', onclick: () => beginAt(seat) });
  seat.question.onkeydown = event => {
    if (event.key === 'Enter' && (event.ctrlKey || event.metaKey)) beginAt(seat);
  };
  seat.question.oninput = () => {
    underline(seat.under, seat.question.value, null);
    fitHeight(seat.question);
  };
  seat.box = element('section', { className: 'seat' },
    element('div', { className: 'title' }, element('h2', { textContent: `Seat ${place + 1}` }),
      element('span', { className: 'buttons small' }, element('label', {}, 'quota ', seat.quota, ' rows'), asks)),
    element('div', { className: 'typed' }, seat.under, seat.question), seat.said, seat.answer);
  return seat;
}

async function beginAt(seat) {
  const reply = await rota.ask('seat', storedText() + seat.question.value, [seat.place]);
  seat.answer.replaceChildren();
  seat.unfinished = reply.number === 0;
  Object.assign(seat, { rows: 0, since: rounds, type: reply.type });
  if (reply.number === 0) sayAt(seat, 'Begun; a round offers it rows.');
  else showFault(seat.said, seat.under, seat.question.value, reply);
}

function sayAt(seat, text, className = '') {
  seat.said.className = `said ${className}`;
  seat.said.textContent = text;
}

// Seats behind the rota are dimmed.
function showRota() {
  seats.forEach((seat, place) => seat.box.classList.toggle('out', place >= Number(byId('rota').value)));
}

// One round; gives whether another one is due.
async function roundOnce() {
  const count = Math.trunc(Number(byId('rota').value));
  const quotas = seats.map(seat => Math.max(0, Math.trunc(Number(seat.quota.value))));
  const reply = await rota.ask('round', '', [count, ...quotas]);
  const said = byId('rota-said');
  said.className = reply.number ? 'said bad' : 'said';
  said.textContent = reply.number ? `Refused ${reply.number} (${reply.sentence}). Nothing was changed.` : `Round ${number(++rounds)}.`;
  if (reply.number) return false;
  reply.seats.forEach((told, place) => showSeat(seats[place], told));
  showRound(reply.seats);
  return reply.seats.some(told => told.unfinished);
}

function showSeat(seat, told) {
  if (told.number === 48) return;
  seat.rows += told.rows;
  const so = `${counted(seat.rows, 'row')} in ${counted(rounds - seat.since, 'round')}`;
  if (told.unfinished) return sayAt(seat, `Unfinished: ${so}.`);
  seat.unfinished = false;
  if (told.number) return sayAt(seat, `Refused ${told.number} (${told.sentence}) after ${so}.`, 'bad');
  sayAt(seat, `Finished: ${so}.`, 'good');
  seat.answer.replaceChildren(valueElement(told.type, told.value));
}

function showRound(told) {
  const table = byId('rounds').querySelector('table') || element('table', {},
    element('tr', {}, ...['Round', 'Seat 1', 'Seat 2', 'Seat 3', 'Seat 4'].map(each => element('th', { textContent: each }))));
  const cell = each => !each ? 'not in the rota' : each.number === 48 ? '48: nothing unfinished'
    : each.number ? `refused ${each.number}` : `${counted(each.rows, 'row')}, ${each.unfinished ? 'unfinished' : 'finished'}`;
  table.rows[0].after(element('tr', {}, element('td', { textContent: number(rounds) }),
    ...seats.map((_, place) => element('td', { textContent: cell(told[place]), className: told[place]?.rows ? '' : 'dim' }))));
  while (table.rows.length > ROUNDS_SHOWN + 1) table.deleteRow(-1);
  byId('rounds').replaceChildren(table);
}

// The first rounds can be followed; later ones go as fast as they can.
async function runRounds() {
  running = true;
  byId('run').hidden = byId('round').hidden = true;
  byId('halt').hidden = false;
  for (let made = 0; running && await roundOnce(); made++) {
    await new Promise(resolve => setTimeout(resolve, made < SLOW_ROUNDS ? SLOW : 0));
  }
  running = false;
  byId('run').hidden = byId('round').hidden = false;
  byId('halt').hidden = true;
}

// Unfinished questions stand over tables and calendars as they were.
function storedChangedAtSeats() {
  const given = seats.filter(seat => seat.unfinished);
  if (given.length === 0) return;
  running = false;
  rota.ask('leave', '');
  for (const seat of given) {
    seat.unfinished = false;
    sayAt(seat, 'Tables or calendars were changed, and the question is given up.');
  }
}

function startSeats() {
  seats = [...Array(SEATS).keys()].map(seatElement);
  byId('seats').replaceChildren(...seats.map(seat => seat.box));
  byId('rota').oninput = showRota;
  byId('round').onclick = roundOnce;
  byId('run').onclick = runRounds;
  byId('halt').onclick = () => { running = false; };
  showRota();
}
