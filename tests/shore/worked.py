#!/usr/bin/env python3
"""Writes a C++ file in which each worked question (tests/examples) is a static_assert: the bytes that the
compiler makes of its text are those of tests/examples/notation.py. A name x that is neither bound nor a
table's is `#255` there; the text as it stands is not understood, nor is one over the engine's sizes."""
import re
import sys
from pathlib import Path

ROOT = Path(__file__).resolve().parent.parent.parent
sys.path.insert(0, str(ROOT / 'tests' / 'examples'))
sys.path.insert(0, str(ROOT / 'tests'))
sys.dont_write_bytecode = True

import examples  # noqa: E402
from notation import NO_NUMBER, question  # noqa: E402

OPENING = '''#include "dislogha_text.h"

template <std::size_t N> constexpr bool same(const dislogha::text::Typed<> &typed, const std::uint8_t (&bytes)[N]) {
    bool alike = typed.understood() && typed.size == N;
    for (std::size_t i = 0; alike && i < N; i++) {
        alike = typed.bytes[i] == bytes[i];
    }
    return alike;
}
'''

SAME = '''constexpr std::uint8_t bytes_%(at)d[] = {%(bytes)s};
static_assert(same(dislogha::text::typed(%(ask)s, %(tables)s), bytes_%(at)d), "%(name)s");
'''

NOT_UNDERSTOOD = 'static_assert(!dislogha::text::typed(%(ask)s, %(tables)s).understood(), "%(name)s");\n'

# What the engine refuses by its size the compiler does not take.
MOST_BYTES = 4096
TOO_MANY = 23

# A name that is not bound, in notation.py's bytes.
UNBOUND = bytes([2, 0, 3, 0, 255, 0])


def literal(text):
    """A C++ literal; adjacent ones, since a compiler may take no longer ones."""
    return ' '.join('"%s"' % text[at:at + 400] for at in range(0, max(len(text), 1), 400))


def names_calendar(case):
    return any(re.search(r'\bopen\(%s\b' % calendar.name, case.ask) for calendar in case.calendars)


def schema(case):
    """The names of the tables that a question names, those that are not there included, and those of calendars
    where it names one. Records that repeat a number or have none are the engine's to refuse."""
    written, numbers, names = [], set(), set()
    for place, table in enumerate(case.tables + case.absent):
        if not re.search(r'\b%s\b' % table.name, case.ask):
            continue
        number = place if table.number is None else table.number
        if number == NO_NUMBER or number in numbers or table.name in names:
            continue
        numbers.add(number)
        names.add(table.name)
        written.append('@%d %s(%s)' % (number, table.name, ', '.join(table.columns)))
    if names_calendar(case):
        written.append('open{%s}' % ', '.join(calendar.name for calendar in case.calendars))
    return ' '.join(written)


def assertion(at, case):
    asked = question(case.ask, case.tables + case.absent, case.calendars)
    words = {'at': at, 'name': case.name, 'ask': literal(case.ask), 'tables': literal(schema(case)),
             'bytes': ','.join(map(str, asked))}
    if len(asked) > MOST_BYTES or case.number == TOO_MANY:
        return NOT_UNDERSTOOD % words
    if UNBOUND not in asked:
        return SAME % words
    return NOT_UNDERSTOOD % words + SAME % {**words, 'ask': literal(re.sub(r'\bx\b', '#255', case.ask))}


def cases():
    return [case for source in examples.SOURCES for case in source.CASES]


def main():
    if len(cases()) < 200:
        sys.exit('worked: only %d cases' % len(cases()))
    with open(sys.argv[1], 'w', encoding='utf-8') as out:
        out.write(OPENING + ''.join(assertion(at, case) for at, case in enumerate(cases())))
    print('worked: %d questions' % len(cases()))


if __name__ == '__main__':
    main()
