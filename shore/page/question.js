// The question: looked at with every key, and answered both ways once it is accepted.

// Words of an answer that are shown.
const WORDS_SHOWN = 300;

// Milliseconds until a running question says so, and behind the last key.
const PATIENCE = 250, PAUSE = 600;

const looking = new Engine(), byLoops = new Engine(), byPlan = new Engine();

// What was asked last, and what has come of it: `look`, `loops` and `plan` are replies.
let asked = { serial: 0 };
// What stood there before the rows were shuffled, until the next change.
let unshuffled = null;

// Asks what is typed. While the module looks at one text only the latest of later ones waits.
function ask() {
  asked = { serial: asked.serial + 1, text: storedText() + byId('question').value, since: performance.now() };
  document.body.dataset.state = 'asking';
  byId('progress').hidden = byId('stop').hidden = byId('go-on').hidden = true;
  fitHeight(byId('question'));
  underline(byId('question-under'), byId('question').value, null);
  if (!looking.busy) look();
}

async function look() {
  const mine = asked;
  const reply = await looking.ask('look', mine.text);
  if (mine !== asked) return look();
  asked.look = reply;
  showLook(reply);
  if (reply.number === 0) answer();
  else done();
}

function showLook(reply) {
  for (const each of ['loops-value', 'loops-words', 'plan-value', 'plan-words', 'same', 'plan', 'lines']) byId(each).replaceChildren();
  byId('bytes').textContent = (reply.bytes || '').replace(/../g, '$& ');
  byId('read-back').textContent = reply.readBack || '';
  markTable(reply.fault);
  markCalendar(reply.fault);
  showFault(byId('said'), byId('question-under'), byId('question').value, reply);
  if (reply.number !== 0) return;
  byId('lines').textContent = reply.lines;
  byId('plan').replaceChildren(planElement(reply.steps));
  byId('plan').classList.toggle('without-rows', !byId('show-rows').checked);
}

// A fault in words, underlined in the text, where it is one of a text. While the text is unfinished, it is dim.
function showFault(said, under, text, reply) {
  const { number: refusal, fault } = reply;
  said.className = 'said';
  if (refusal === 0) {
    said.textContent = 'Accepted.';
    return;
  }
  const dim = Boolean(fault.unfinished);
  said.classList.add(dim ? 'dim' : 'bad');
  said.replaceChildren();
  if (dim) said.append('Unfinished: ');
  const parts = [];
  if (fault.table !== undefined) parts.push(placeInTables(fault));
  else if (fault.calendar !== undefined) parts.push(`Calendar ${calendars[fault.calendar].name}`);
  else if (under) underline(under, text, fault, dim);
  if (fault.why) parts.push(fault.why);
  if (refusal) said.append(element('b', { textContent: `Refused ${refusal}` }), ` (${reply.sentence})`, parts.length ? ': ' : '');
  said.append(parts.join(': '), '.');
}

// The copy of the text with the fault's place marked. Places count bytes.
function underline(under, text, fault, dim = false) {
  const bytes = new TextEncoder().encode(text);
  const cut = (from, to) => new TextDecoder().decode(bytes.slice(from, to));
  if (!fault) {
    under.textContent = text + '\n';
    return;
  }
  const to = Math.max(fault.to, fault.from + 1);
  const mark = element('mark', { textContent: cut(fault.from, to) || ' ', className: dim ? 'dim' : '' });
  under.replaceChildren(cut(0, fault.from), mark, cut(to) + '\n');
}

// For a short while behind the last key faults are dim (page.css).
function typing(area) {
  const section = area.closest('section');
  section.classList.add('typing');
  clearTimeout(area.pause);
  area.pause = setTimeout(() => section.classList.remove('typing'), PAUSE);
}

function fitHeight(area) {
  area.style.height = 'auto';
  area.style.height = `${area.scrollHeight + 2}px`;
}

// Both ways, save what has been answered before it was stopped.
function answer(goingOn = false) {
  const mine = asked;
  const show = way => reply => mine === asked && showWay(way, reply);
  if (byLoops.busy) byLoops.end();
  if (!mine.loops) byLoops.ask('loops', mine.text).then(show('loops'));
  const progress = rows => { mine.rows = rows; };
  if (!mine.plan) byPlan.ask('portions', goingOn ? undefined : mine.text, [], progress).then(show('plan'));
  tick(mine);
}

// A question that takes long says how far it is, and can be stopped.
function tick(mine) {
  if (mine !== asked || document.body.dataset.state !== 'asking') return;
  const passed = performance.now() - mine.since;
  if (passed > PATIENCE) {
    const most = mine.look.rows;
    const plan = mine.plan ? 'By plan: answered.' : `By plan: ${number(mine.rows || 0)} of at most ${number(most)} rows offered.`;
    const loops = mine.loops ? 'By loops: answered.' : 'By loops: running.';
    byId('said').className = 'said';
    byId('said').textContent = `${(passed / 1000).toFixed(1)} s. ${plan} ${loops}`;
    byId('progress').value = most ? (mine.rows || 0) / most : 0;
    byId('progress').hidden = byId('stop').hidden = false;
  }
  setTimeout(() => tick(mine), 100);
}

function stop() {
  if (byLoops.busy) byLoops.end();
  byPlan.halt();
  byId('said').textContent = asked.plan ? 'Stopped; by plan it is answered.' : `Stopped between two portions, after ${counted(asked.rows || 0, 'row')}.`;
  byId('stop').hidden = true;
  byId('go-on').hidden = false;
  document.body.dataset.state = 'stopped';
}

// By plan it goes on where it was stopped; by loops it begins anew.
function goOn() {
  byId('go-on').hidden = true;
  document.body.dataset.state = 'asking';
  asked.since = performance.now();
  answer(true);
}

function showWay(way, reply) {
  asked[way] = reply;
  const words = byId(`${way}-words`), value = byId(`${way}-value`);
  if (reply.number) {
    value.replaceChildren(element('p', { className: 'said bad', textContent: `Refused ${reply.number} (${reply.sentence}).` }));
  } else {
    value.replaceChildren(valueElement(reply.type, reply.value));
    const all = reply.words.split(' ');
    words.textContent = all.length > WORDS_SHOWN ? `${all.slice(0, WORDS_SHOWN).join(' ')} … (${number(all.length)} words)` : reply.words;
  }
  if (asked.loops && asked.plan) showBoth();
}

function showBoth() {
  const { loops, plan } = asked;
  const same = loops.number === plan.number && loops.words === plan.words;
  byId('same').className = `said ${same ? 'good' : 'bad'}`;
  byId('same').textContent = same ? 'Both answers are the same, word for word.' : 'The answers differ. Do not use them, and tell whoever keeps the engine.';
  byId('said').className = 'said good';
  const taken = `by loops in ${milliseconds(loops.ms)} and by plan in ${milliseconds(plan.ms)}`;
  byId('said').textContent = loops.number ? '' : `Answered ${taken}, ${counted(plan.rows, 'row')} offered.`;
  done();
}

function milliseconds(ms) { return ms < 1000 ? `${ms.toFixed(1)} ms` : `${(ms / 1000).toFixed(1)} s`; }

function done() {
  byId('progress').hidden = byId('stop').hidden = byId('go-on').hidden = true;
  document.body.dataset.state = 'shown';
  if (unshuffled) showShuffled();
}

// All that a question came to; the order of rows is no part of it.
function outcome() {
  const { look: looked, loops, plan } = asked;
  return JSON.stringify([looked?.number, looked?.lines, loops?.number, loops?.words, plan?.number, plan?.words, plan?.rows]);
}

function shuffleRows() {
  const before = document.body.dataset.state === 'shown' ? outcome() : null;
  const names = before === null ? [] : shuffleTables();
  const said = byId('shuffled');
  said.hidden = false;
  if (names.length === 0 || before === null) {
    said.className = 'said';
    said.textContent = before === null ? 'First let the question end.' : 'No bag or set has two different rows.';
    return;
  }
  unshuffled = { before, names };
  storedChangedAtSeats();
  ask();
}

function showShuffled() {
  const { before, names } = unshuffled;
  const same = outcome() === before;
  const rows = `The rows of ${names.join(', ')} stand in another order`;
  byId('shuffled').className = `said ${same ? 'good' : 'bad'}`;
  byId('shuffled').textContent = same
    ? `${rows}: refusal, plan, rows offered and both answers are what they were, word for word.`
    : `${rows}, and something has changed. Tell whoever keeps the engine.`;
  unshuffled = null;
}

function startQuestion() {
  const question = byId('question'), examples = byId('examples');
  question.oninput = () => {
    byId('shuffled').hidden = true;
    typing(question);
    ask();
  };
  examples.append(element('option', { textContent: 'Examples…', value: '' }),
    ...EXAMPLES.questions.map(([title], place) => element('option', { textContent: title, value: String(place) })));
  examples.onchange = () => {
    if (examples.value !== '') question.value = EXAMPLES.questions[examples.value][1];
    examples.value = '';
    byId('shuffled').hidden = true;
    ask();
    question.focus();
  };
  byId('stop').onclick = stop;
  document.addEventListener('keydown', event => {
    if (event.key === 'Escape' && !byId('stop').hidden) stop();
  });
  byId('go-on').onclick = goOn;
  byId('shuffle').onclick = shuffleRows;
  byId('show-rows').onchange = event => byId('plan').classList.toggle('without-rows', !event.target.checked);
  question.value = EXAMPLES.questions[0][1];
}
