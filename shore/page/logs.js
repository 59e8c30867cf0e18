// Two logs side by side (document 02, E11): two tables and a tolerance are chosen, and which rows pair is the engine's word. Rows stand in time order, those
// of the same second at one height; pairs are joined by lines, singles are marked.

// Of the drawing: the height of a row and of the heading, where the dots of either log stand, and how far outwards from them its seconds and positions.
const LOG_ROW = 22, LOG_TOP = 30, DOTS = [210, 370], SECONDS = 14, POSITIONS = 130, LOGS_WIDTH = 580;

const pairing = new Engine();
// What was chosen by hand; until then the first two lists stand there, or the first two tables.
const pickedLogs = [];
let pairedOf = 0;

function logAt(place) {
  const lists = tables.filter(table => table.collection === 'list');
  return tables.includes(pickedLogs[place]) ? pickedLogs[place] : lists[place] ?? tables[place] ?? tables[0];
}

function showLogChoices() {
  ['first-log', 'second-log'].forEach((id, place) => byId(id).replaceChildren(...tables.map(table =>
    element('option', { textContent: `${table.name}, a ${table.collection}`, selected: table === logAt(place) }))));
}

// Asks for the pairs, where the panel is shown.
async function pairLogs() {
  if (byId('logs-panel').hidden) return;
  const mine = ++pairedOf;
  showLogChoices();
  const names = [0, 1].map(place => logAt(place)?.name ?? '');
  const numbers = [0, 1].map(place => logAt(place)?.number ?? '0');
  const reply = await pairing.ask('logs', tablesText() + [...numbers, byId('tolerance').value].join(CELL_END));
  if (mine !== pairedOf) return;
  if (reply.number !== 0) {
    byId('logs').replaceChildren();
    return showFault(byId('logs-said'), null, '', reply);
  }
  const singles = reply.singles.map((found, place) => `${counted(found.length, 'single')} of ${names[place]}`);
  byId('logs-said').className = 'said good';
  byId('logs-said').textContent = `${[counted(reply.pairs.length, 'pair'), ...singles].join(', ')}; ${counted(reply.bytes, 'byte')} in three records.`;
  byId('logs').replaceChildren(logsElement(names, reply));
}

// The height of each row: in time order, those of the same second side by side.
function logHeights([first, second]) {
  const heights = [[], []];
  for (let height = 0, i = 0, j = 0; i < first.length || j < second.length; height++) {
    const earliest = Math.min(first[i] ?? Infinity, second[j] ?? Infinity);
    if (first[i] === earliest) heights[0][i++] = LOG_TOP + LOG_ROW * (height + 0.5);
    if (second[j] === earliest) heights[1][j++] = LOG_TOP + LOG_ROW * (height + 0.5);
  }
  return heights;
}

function drawn(name, attributes, ...children) {
  const made = document.createElementNS('http://www.w3.org/2000/svg', name);
  for (const [key, value] of Object.entries(attributes)) made.setAttribute(key, value);
  made.append(...children);
  return made;
}

// A text so far outwards from the dots of a log, or inwards.
function logText(side, outwards, y, text, className) {
  const left = (side === 0) === (outwards > 0);
  return drawn('text', { x: DOTS[side] + (side === 0 ? -outwards : outwards), y, class: className, 'text-anchor': left ? 'end' : 'start',
    'dominant-baseline': 'central' }, String(text));
}

function logRow(side, position, second, y, single) {
  const made = drawn('g', { class: single ? 'row single' : 'row' }, logText(side, POSITIONS, y, position, 'position'),
    logText(side, SECONDS, y, second, 'second'), drawn('circle', { cx: DOTS[side], cy: y, r: 4 }));
  if (single) made.append(logText(side, -SECONDS, y, 'single', 'mark'));
  return made;
}

// What was told: the seconds of both logs, and positions in them.
function logsElement(names, { seconds, pairs, singles }) {
  const heights = logHeights(seconds);
  const height = Math.max(LOG_TOP, ...heights.map(each => (each.at(-1) ?? 0) + LOG_ROW));
  const label = `The rows of ${names.join(' and ')} in time order, pairs joined by lines`;
  const made = drawn('svg', { width: LOGS_WIDTH, height, role: 'img', 'aria-label': label });
  made.append(...pairs.map(([i, j]) => drawn('line', { x1: DOTS[0], y1: heights[0][i], x2: DOTS[1], y2: heights[1][j] })));
  [0, 1].forEach(side => {
    const single = new Set(singles[side]);
    made.append(logText(side, SECONDS, LOG_TOP / 2, names[side], 'name'), logText(side, POSITIONS, LOG_TOP / 2, 'position', 'position'),
      ...seconds[side].map((second, position) => logRow(side, position, second, heights[side][position], single.has(position))));
  });
  return made;
}

// The example logs, in place of tables that are called so; both are chosen.
function putExampleLogs() {
  const given = EXAMPLES.logs.filter(log => tables.some(({ name }) => name === log.name) || tables.length < MOST.tables);
  for (const log of given) {
    const place = tables.findIndex(({ name }) => name === log.name);
    const table = newTable(log.name, log.collection, log.columns, log.rows.map(row => [...row]));
    if (place >= 0) tables[place] = { ...table, number: tables[place].number };
    else tables.push(table);
  }
  pickedLogs.splice(0, 2, ...EXAMPLES.logs.map(log => tables.find(({ name }) => name === log.name)));
  setTables(tables);
}

function startLogs() {
  ['first-log', 'second-log'].forEach((id, place) => {
    byId(id).onchange = () => {
      pickedLogs[place] = tables[byId(id).selectedIndex];
      pairLogs();
    };
  });
  byId('tolerance').oninput = pairLogs;
  byId('example-logs').onclick = putExampleLogs;
}
