// Answers as tables: a collection of records is a table, a collection inside a record a table in its cell.
// A value is a number's text, a truth, an array of fields, or {count, first} of a collection.

// Elements of a collection that are shown at first.
const SHOWN = 50;

function element(name, properties = {}, ...children) {
  const made = Object.assign(document.createElement(name), properties);
  made.append(...children);
  return made;
}

function isScalar(type) { return type.sort === 'number' || type.sort === 'truth'; }

function valueElement(type, value) {
  if (isScalar(type)) return element('span', { className: 'scalar', textContent: String(value) });
  const collection = type.sort !== 'record';
  const row = collection ? type.parts[0] : type;
  const rows = collection ? value.first : [value];
  const fields = row.sort === 'record' ? row.parts : [row];
  const names = row.sort === 'record' ? row.names.map((name, place) => name || String(place)) : [row.sort];
  const body = element('table', {}, element('tr', {}, ...names.map(name => element('th', { textContent: name }))));
  appendRows(body, rows, each => {
    const cells = row.sort === 'record' ? each : [each];
    return element('tr', {}, ...cells.map((cell, place) => valueCell(fields[place], cell)));
  }, SHOWN);
  const made = element('div', { className: 'wide' }, body);
  made.dataset.sort = type.sort;
  if (collection && value.count !== rows.length) made.append(note(`${number(value.count)} elements, of which the first ${number(rows.length)} are shown`));
  if (collection && value.count === 0) made.append(note(`an empty ${type.sort}`));
  return made;
}

function valueCell(type, value) {
  const cell = element('td');
  cell.append(isScalar(type) ? String(value) : valueElement(type, value));
  return cell;
}

// The first rows, and a button for the others.
function appendRows(table, rows, made, most) {
  table.append(...rows.slice(0, most).map(made));
  if (rows.length <= most) return;
  const more = element('button', { textContent: `${number(rows.length - most)} more` });
  const row = element('tr', {}, element('td', { className: 'more', colSpan: table.rows[0].cells.length }, more));
  more.onclick = () => row.replaceWith(...rows.slice(most).map(made));
  table.append(row);
}

function note(text) { return element('p', { className: 'small', textContent: text }); }

function number(count) { return Number(count).toLocaleString('en'); }

function counted(count, thing) { return `${number(count)} ${thing}${Number(count) === 1 ? '' : 's'}`; }
