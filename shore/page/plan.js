// The plan drawn: its operators in their order, between them the rows that go from one to the next, which the module asked the engine for.

// Rows between two operators that are shown at first.
const STREAM_SHOWN = 6;

// An operator is {op, title, head, condition, places, rows}, a nest also has `opens`, the operator whose place it takes: from there up to the nest there is
// a bracket, and brackets stand in one another.
function planElement(steps) {
  const made = element('div');
  const into = [made];
  steps.forEach((step, place) => {
    for (const nest of steps) {
      if (nest.opens === place) into.unshift(into[0].appendChild(element('div', { className: 'bracket' })));
    }
    into[0].append(operatorElement(step));
    if (step.opens !== undefined) into.shift();
    if (place + 1 < steps.length) into[0].append(rowsElement(step));
  });
  return made;
}

function operatorElement(step) {
  const made = element('div', { className: `operator ${step.op}` }, element('b', { textContent: step.title }));
  if (step.head) made.append(element('code', { textContent: `of ${step.head}` }));
  if (step.condition) made.append(element('code', { textContent: `where ${step.condition}` }));
  return made;
}

function rowsElement(step) {
  const made = element('div', { className: 'between' });
  if (!step.rows) {
    made.append(step.places.length ? `rows of ${step.places.join(', ')}` : 'one row');
    if (step.unshown) made.append(note(`The question that would show them is ${step.unshown}.`));
    return made;
  }
  const { count, first } = step.rows;
  made.append(`${counted(count, 'row')} of ${step.places.join(', ')}`);
  if (first.length === 0) return made;
  const table = element('table', {}, element('tr', {}, ...step.places.map(name => element('th', { textContent: name }))));
  const row = cells => element('tr', {}, ...cells.map(cell => element('td', { textContent: cell, className: cell === 'pad' ? 'pad' : '' })));
  appendRows(table, first, row, STREAM_SHOWN);
  made.append(element('div', { className: 'wide stream' }, table));
  if (count > first.length) made.append(note(`the first ${number(first.length)} of them`));
  return made;
}
