#!/usr/bin/env python3
"""Writes tests/examples/cases, worked.jsonl in tests/tariffs and tests/outages, and docs/EXAMPLES.md from the cases under tests/examples.

With --check nothing is written; the exit code says whether the files are what would be written.
"""
import sys
from pathlib import Path

ROOT = Path(__file__).resolve().parent.parent
sys.path.insert(0, str(ROOT / 'tests' / 'examples'))
sys.dont_write_bytecode = True

import edges  # noqa: E402
import request_e1  # noqa: E402
import request_e2  # noqa: E402
import request_e4  # noqa: E402
import request_e5  # noqa: E402
import request_e6  # noqa: E402
import request_e9  # noqa: E402
import request_e10  # noqa: E402
import request_e12  # noqa: E402
import request_e13  # noqa: E402
import source_000  # noqa: E402
import source_001  # noqa: E402
import source_002  # noqa: E402
import source_003  # noqa: E402
import source_004  # noqa: E402

from notation import WIDEST  # noqa: E402

SOURCES = [source_000, source_001, source_002, source_003, source_004, edges, request_e1, request_e2,
           request_e4, request_e5, request_e9, request_e10, request_e13]

OPENING = '''# Example queries

Made by `tests/examples.py`; do not edit. `tests/harness/examples.rs` runs every case, `tests/harness/dues.rs` those with a tariff,
`tests/harness/outages.rs` those in which outages are counted.

The example queries of the source documents, recast over tables, the cases of document 01's "At the
edges", and cases of document 02's requests. The words were worked out by hand from the papers and
reckoned again in plain Python; no engine was asked.

- Strings, objects and keys are numbers. An extent is a table; a set that is counted or summed is a
  bag table, since a set may not stand in a sum (26).
- A stored collection inside an object, `e.children`, is a comprehension over a second table whose
  rows name their owner: `bag{ k | k <- Children, k.parent = e.id }`. A path through an object,
  `e.dept.name`, is a generator over that object's table: `d <- Departments, d.dno = e.dept`.
- A query that the paper leaves general (a predicate p, a function f) has one that fits the tables.
- Grouping gives one row for each group, so figure 13's queries with group by are sets.

Questions are in a small notation: `monoid{ head | qualifiers }` with `x <- term` for a generator,
`let x = term` for a binding (the papers' ≡) and any other term for a condition; `(a, b)` is a
record; `x.name` is the field of that column, `x.0` the first field; `if c then a else b` is a choice
(document 02, E2), `open(Lock, a)` an open minute (document 02, E4), a calendar's name standing for its
place among those of the case. `a > b` is short for `b < a`,
`a <= b` for `not b < a`, `a >= b` for `not a < b`, `a != b` for `not a = b`. The tables of a case
are numbered in the order in which they are given, where no other number (document 02, E9) stands behind
a table's name. A table is by row where "by column" (document 02, E10) does not stand there; what such a
table then stores is given behind its rows, worked out by hand. A column is declared 2^31 (document 02, E5) where no other bound stands behind its name.
Each case's plan is in `tests/examples/cases`, written by hand too.

A line of `tests/examples/cases` is one case, its fields separated by a tab: name, scratch words,
data, calendars and question in hexadecimal, the checker's number, G, the answer's words, the
plan's lines with `\\n` for byte 10; `-` where there is nothing. Cases with a tariff are lines of
`tests/tariffs/worked.jsonl`, those of outages of `tests/outages/worked.jsonl`, as the recorded calls there are.
'''


def code(text):
    return '`%s`' % text.replace('|', '\\|') if text else ''


def asked(text):
    return code(text if len(text) <= 1000 else '%s .. %s' % (text[:20], text[-20:]))


def row(cells):
    return '| %s |\n' % ' | '.join(cells)


def heading(cells):
    return row(cells) + row(['---'] * len(cells))


def stored_by(table):
    if table.stored is None:
        return ''
    shown = [str(word) for word in table.stored] or ['nothing']
    return '; by column %s' % ' '.join(shown if len(shown) <= 10 else shown[:3] + ['..', shown[-1]])


def rows_of(table):
    shown = [str(tuple(cells)).replace(',)', ')') for cells in table.rows]
    if len(shown) > 10:
        return '%s, %s, .. %s: %d rows' % (shown[0], shown[1], shown[-1], len(shown))
    return ', '.join(shown) or 'no rows'


def columns_of(table):
    if not table.bounds:
        return ', '.join(table.columns) + ' (no bounds)'
    declared = zip(table.columns, table.bounds)
    return ', '.join(column if bound == WIDEST else '%s (%d)' % (column, bound) for column, bound in declared)


def named(table):
    kinds = {20: [], 23: ['by column']}
    behind = [] if table.number is None else [str(table.number)]
    behind += kinds.get(table.kind, ['kind %d' % table.kind])
    return '%s (%s)' % (table.name, ', '.join(behind)) if behind else table.name


def tables_of(source):
    """The tables of a source's cases, each once, whatever its numbers, in the order of their first use; by
    column where it is anywhere."""
    tables = {}
    for case in source.CASES:
        for table in case.tables + case.absent:
            if table.stored is not None and tables.get(table.name, table).stored is None:
                tables[table.name] = table
            tables.setdefault(table.name, table)
    return tables.values()


def names(tables):
    return ', '.join(named(table) for table in tables)


def names_of(case):
    stored, absent = names(case.tables), names(case.absent)
    calendars = [calendar.name for calendar in case.calendars] + ['%d bytes 0' % case.tail] * (case.tail > 0)
    parts = [stored, absent and 'not there: ' + absent, ', '.join(calendars)]
    return '; '.join(part for part in parts if part)


def calendars_of(source):
    """The calendars of a source's cases, each once, in the order of their first use."""
    calendars = {}
    for case in source.CASES:
        for calendar in case.calendars:
            calendars.setdefault(calendar.name, calendar)
    return calendars.values()


WEEKDAYS = ['Monday', 'Tuesday', 'Wednesday', 'Thursday', 'Friday', 'Saturday', 'Sunday']


def windows_of(calendar):
    shown = ['%s %d to %d' % (WEEKDAYS[day] if day < 7 else 'weekday %d' % day, first, end)
             for day, first, end in calendar.windows]
    if len(shown) > 10:
        shown = [shown[0], shown[1], '.. ' + shown[-1] + ': %d windows' % len(shown)]
    broken = [('kind %d' % calendar.kind, calendar.kind != 24),
              ('says %d windows' % calendar.count, calendar.count != len(calendar.windows)),
              ('%d bytes short' % calendar.short, calendar.short), ('%d bytes cut off' % calendar.cut, calendar.cut)]
    return '; '.join([', '.join(shown) or 'no windows'] + [what for what, holds in broken if holds])


def gives(case):
    if case.number:
        result = 'refused %d' % case.number
    else:
        result = ' '.join(str(word) for word in case.gives)
        if case.G != len(case.gives):
            result += '; G %d' % case.G
    return result + ('. ' + ' '.join(case.says.split()) if case.says else '')


def tables_text(source):
    text = heading(['Table', 'Collection', 'Columns', 'Rows'])
    for table in tables_of(source):
        text += row([code(table.name), table.collection, columns_of(table), rows_of(table) + stored_by(table)])
    return text


def dues_text():
    """The cases of E6: tariffs with their bytes by hand, and what each question owes by one of them."""
    source = request_e6
    text = '\n## %s\n\n%s\n' % (source.TITLE, tables_text(source))
    text += heading(['Tariff', 'Steps: cents per metre begun', 'Minimum', 'Bytes'])
    for tariff in dict.fromkeys(case.tariff for case in source.CASES):
        text += row([code(tariff.name), tariff.shown(), str(tariff.minimum), code(tariff.by_hand)])
    text += '\n' + heading(['Case', 'In the paper', 'Tariff', 'Tables', 'Question', 'Gives'])
    for case in source.CASES:
        text += row([case.name, code(case.paper), code(case.tariff.name), names(case.tables), asked(case.ask), gives(case)])
    return text


def outages_text():
    """The cases of E12: the table whose rows may be out, and how many subsets give true and false."""
    source = request_e12
    text = '\n## %s\n\n%s\n' % (source.TITLE, tables_text(source))
    text += heading(['Case', 'In the paper', 'Tables', 'Rows of', 'Question', 'Gives'])
    for case in source.CASES:
        out = code(case.tables[case.of].name) if case.of < len(case.tables) else 'table %d' % case.of
        text += row([case.name, code(case.paper), names(case.tables), out, asked(case.ask), gives(case)])
    return text


def document():
    text = OPENING
    for source in SOURCES:
        text += '\n## %s\n\n%s' % (source.TITLE, tables_text(source))
        if calendars_of(source):
            text += '\n' + heading(['Calendar', 'Windows'])
        for calendar in calendars_of(source):
            text += row([code(calendar.name), windows_of(calendar)])
        behind = ['Tables; calendars' if calendars_of(source) else 'Tables', 'Question', 'Gives']
        text += '\n' + heading(['Case', 'Where', 'In the paper'] + behind)
        for case in source.CASES:
            where = case.place.replace('*', '\\*')
            text += row([case.name, where, code(case.paper), names_of(case), asked(case.ask), gives(case)])
        if source.LEFT_OUT:
            text += '\nNot recast:\n\n' + heading(['Where', 'Query', 'Why'])
            for where, query, why in source.LEFT_OUT:
                text += row([where, query.replace('|', '\\|'), why])
    return text + dues_text() + outages_text()


def lines_of(sources):
    cases = [case for source in sources for case in source.CASES]
    if len({case.name for case in cases}) != len(cases):
        raise ValueError('two cases have one name')
    for case in cases:
        case.check()
    return ''.join(case.line() for case in cases)


def main():
    wanted = {ROOT / 'tests' / 'examples' / 'cases': lines_of(SOURCES), ROOT / 'tests' / 'tariffs' / 'worked.jsonl': lines_of([request_e6]),
              ROOT / 'tests' / 'outages' / 'worked.jsonl': lines_of([request_e12]),
              ROOT / 'docs' / 'EXAMPLES.md': document()}
    for path, text in wanted.items():
        if '--check' not in sys.argv:
            path.write_text(text)
        elif not path.exists() or path.read_text() != text:
            sys.exit('%s is not what tests/examples.py writes' % path.relative_to(ROOT))


if __name__ == '__main__':
    main()
