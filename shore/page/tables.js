// The tables, edited in place. A cell is kept as it is typed; whether it is a number is said by the engine's side (page.cpp).

const COLLECTIONS = ['list', 'bag', 'set'];
const WIDEST = '2147483648';

// The papers' limits, by which buttons end; what is beyond them is refused by the engine.
const MOST = { tables: 8, columns: 8, rows: 1024, calendars: 4 };

// Rows of a table that are shown until all are asked for.
const ROWS_SHOWN = 12;

// Behind each calendar and each table, and between the cells of a row: no typed text has them.
const CALENDAR_END = '\x1d', TABLE_END = '\x1e', CELL_END = '\x1f';

let tables = [];
// Told when tables or calendars have changed.
let storedChanged = () => {};

function newTable(name, collection, columns, rows, changes = {}) {
  return { name, collection, columns, rows, number: String(freeNumber()), bounds: columns.map(() => WIDEST), all: false, ...changes };
}

function freeNumber() {
  const used = new Set(tables.map(table => Number(table.number)));
  return [...Array(MOST.tables).keys()].find(each => !used.has(each)) ?? MOST.tables;
}

// What the module is given of a table.
function tableText(table) {
  const rows = [[table.number, table.collection, table.name], table.columns, table.bounds, ...table.rows];
  return rows.map(row => row.join(CELL_END)).join('\n') + TABLE_END;
}

function tablesText() { return tables.map(tableText).join(''); }

function setTables(given) {
  tables = given;
  showTables();
  storedChanged();
}

function showTables() {
  byId('tables').replaceChildren(...tables.map(tableElement));
  byId('add-table').disabled = tables.length >= MOST.tables;
}

// An input that writes into one of the table's lists or properties, or into a calendar's.
function field(holder, key, label, className = '', kind = 'input') {
  const made = element(kind, { value: holder[key], className, spellcheck: false, autocomplete: 'off' });
  made.setAttribute('aria-label', label);
  made.oninput = () => {
    holder[key] = made.value.trim();
    storedChanged();
  };
  return made;
}

function action(text, label, act, enabled = true) {
  const made = element('button', { textContent: text, title: label, onclick: act, disabled: !enabled });
  made.setAttribute('aria-label', label);
  return made;
}

// Changes that add or take away cells show the table anew.
function changed(table, change) {
  change();
  const place = tables.indexOf(table);
  byId('tables').children[place].replaceWith(tableElement(table));
  storedChanged();
}

function tableElement(table) {
  const collection = element('select', { onchange: () => { table.collection = collection.value; storedChanged(); } },
    ...COLLECTIONS.map(each => element('option', { textContent: each, selected: each === table.collection })));
  collection.setAttribute('aria-label', `Collection of ${table.name}`);
  const top = element('div', { className: 'top' }, field(table, 'name', 'Name of the table', 'name'), collection,
    element('label', { className: 'no' }, 'no. ', field(table, 'number', 'Number of the table', 'number')),
    action('×', `Take ${table.name} away`, () => setTables(tables.filter(each => each !== table))));
  const grid = element('table');
  grid.onkeydown = event => moveInGrid(table, grid, event);
  grid.onpaste = event => pasteIntoGrid(table, grid, event);
  grid.append(...gridRows(table));
  return element('div', { className: 'table' }, top, element('div', { className: 'wide' }, grid), tableButtons(table));
}

function gridRows(table) {
  const cells = (values, kind, label) => values.map((_, column) =>
    element(kind, {}, field(values, column, `${label} ${table.columns[column]}`)));
  const shown = table.all ? table.rows : table.rows.slice(0, ROWS_SHOWN);
  const heads = element('tr', {}, ...cells(table.columns, 'th', 'Name of column'), element('th', { className: 'ends' }));
  const bounds = element('tr', { className: 'bounds', title: 'The bound of the column: no cell may be beyond it' },
    ...cells(table.bounds, 'th', 'Bound of column'), element('th', { className: 'ends' }));
  return [heads, bounds, ...shown.map((row, place) => element('tr', {}, ...cells(row, 'td', `Row ${place + 1}, column`),
    element('td', { className: 'ends' }, action('×', `Take row ${place + 1} away`, () => changed(table, () => table.rows.splice(place, 1))))))];
}

function tableButtons(table) {
  const width = table.columns.length;
  const column = change => () => changed(table, () => { for (const row of [table.columns, table.bounds, ...table.rows]) change(row); });
  const added = row => row.push(row === table.columns ? `c${width}` : row === table.bounds ? WIDEST : '0');
  const buttons = element('div', { className: 'buttons' },
    action('+ row', 'Add a row', () => addRow(table), table.rows.length < MOST.rows),
    action('+ column', 'Add a column', column(added), width < MOST.columns),
    action('− column', 'Take the last column away', column(row => row.pop()), width > 1),
    action('bounds', 'Declare the least bounds that the cells keep', () => changed(table, () => { table.bounds = leastBounds(table); })));
  if (!table.all && table.rows.length > ROWS_SHOWN) {
    buttons.append(action(`all ${number(table.rows.length)} rows`, 'Show all rows', () => { table.all = true; changed(table, () => {}); }));
  }
  return buttons;
}

function leastBounds(table) {
  return table.columns.map((_, column) => String(Math.max(0, ...table.rows.map(row => Math.abs(Number(row[column])) || 0))));
}

function addRow(table) {
  changed(table, () => {
    table.rows.push(table.columns.map(() => '0'));
    table.all = table.all || table.rows.length > ROWS_SHOWN;
  });
  focusCell(byId('tables').children[tables.indexOf(table)].querySelector('table'), table.rows.length + 1, 0);
}

function focusCell(grid, row, column) {
  const cell = grid.rows[row]?.cells[column]?.querySelector('input');
  if (cell) {
    cell.focus();
    cell.select();
  }
  return Boolean(cell);
}

function placeOf(input) {
  const cell = input.closest('td, th');
  return cell && input.matches('input') ? [cell.parentNode.rowIndex, cell.cellIndex] : null;
}

// Up, down and Enter go from row to row; Enter in the last row adds one.
function moveInGrid(table, grid, event) {
  const place = placeOf(event.target);
  const step = { ArrowUp: -1, ArrowDown: 1, Enter: 1 }[event.key];
  if (!place || !step) return;
  event.preventDefault();
  if (!focusCell(grid, place[0] + step, place[1]) && event.key === 'Enter' && table.rows.length < MOST.rows) addRow(table);
}

// Cells as a spreadsheet copies them, from the cell on that has the focus.
function pasteIntoGrid(table, grid, event) {
  const place = placeOf(event.target);
  const text = event.clipboardData.getData('text');
  if (!place || place[0] < 2 || !/[\t\n]/.test(text.trim())) return;
  event.preventDefault();
  changed(table, () => text.replace(/\r/g, '').replace(/\n$/, '').split('\n').forEach((line, down) => {
    const at = place[0] - 2 + down;
    if (at >= MOST.rows) return;
    table.rows[at] ??= table.columns.map(() => '0');
    line.split('\t').forEach((cell, right) => {
      if (place[1] + right < table.columns.length) table.rows[at][place[1] + right] = cell.trim();
    });
  }));
}

// Marks what the module found wrong: {table, row, column}. Rows -1 and -2 are bounds and names of columns, -3 is the table's head.
function markTable(fault) {
  for (const marked of document.querySelectorAll('.wrong')) marked.classList.remove('wrong');
  if (!fault || fault.table === undefined) return;
  const table = tables[fault.table], shown = () => byId('tables').children[fault.table];
  if (fault.row === -3) return shown().querySelector(fault.column === 0 ? 'input.number' : 'input.name').classList.add('wrong');
  if (!table.all && fault.row >= ROWS_SHOWN) {
    table.all = true;
    shown().replaceWith(tableElement(table));
  }
  for (const cell of shown().querySelector('table').rows[fault.row + 2].cells) {
    if (!cell.classList.contains('ends') && (fault.column < 0 || cell.cellIndex === fault.column)) cell.classList.add('wrong');
  }
}

// The same place in words.
function placeInTables({ table, row, column }) {
  const parts = [`Table ${tables[table].name}`];
  if (row >= 0) parts.push(`row ${row + 1}`);
  if (row === -1) parts.push('bound');
  if (row > -3 && column >= 0) parts.push(`column ${tables[table].columns[column]}`);
  return parts.join(', ');
}

// The rows of bags and sets in another order. Gives the names of the tables of which a row moved.
function shuffleTables() {
  const moved = tables.filter(table => table.collection !== 'list' && new Set(table.rows.map(String)).size > 1);
  for (const table of moved) {
    const before = table.rows.map(String).join();
    do shuffle(table.rows); while (table.rows.map(String).join() === before);
  }
  showTables();
  return moved.map(table => table.name);
}

function shuffle(rows) {
  for (let left = rows.length - 1; left > 0; left--) {
    const other = Math.floor(Math.random() * (left + 1));
    [rows[left], rows[other]] = [rows[other], rows[left]];
  }
}

// Files are read by the module, which says line and column of what is no table. A file's table declares the bounds of its cells.
async function openFiles(engine, files) {
  const said = [];
  for (const file of files) {
    const reply = await engine.ask('csv', await file.text());
    if (reply.why) {
      said.push(`${file.name}: ${reply.why}`);
    } else if (tables.length >= MOST.tables) {
      said.push(`${file.name}: there are ${MOST.tables} tables already`);
    } else {
      const table = newTable(tableName(file.name), 'bag', reply.columns, reply.rows);
      table.bounds = leastBounds(table);
      tables.push(table);
    }
  }
  byId('csv-said').textContent = said.join('. ');
  byId('csv-said').hidden = said.length === 0;
  showTables();
  storedChanged();
}

// A file's name without its ending, as a name that can be typed in a question.
function tableName(file) {
  return file.replace(/\.[^.]*$/, '').replace(/[^A-Za-z0-9_]/g, '_').replace(/^(?=\d|$)/, 't');
}

function startTables(engine) {
  byId('add-table').onclick = () => setTables([...tables, newTable(`table${freeNumber()}`, 'bag', ['a', 'b'], [['0', '0']])]);
  byId('open-csv').onclick = () => byId('csv-files').click();
  byId('csv-files').onchange = event => openFiles(engine, [...event.target.files]);
  const panel = byId('tables-panel');
  panel.ondragover = event => event.preventDefault();
  panel.ondrop = event => {
    event.preventDefault();
    openFiles(engine, [...event.dataTransfer.files]);
  };
}
