#!/usr/bin/env python3
"""The worked questions (tests/examples) typed into the shell: bytes, number and words are those that were worked out
by hand, and the plan's lines, too. A calendar is refused where it is loaded, before the question.

Its argument: the shell. What cannot be typed is left out and counted: tables that a CSV file cannot have (1,025 rows,
another kind, bounds that their cells break, numbers that repeat or are above 7, nine tables), calendars of another kind,
count or length, data cut short, bytes behind calendars or question, other scratch than 2,048 words."""
import re
import subprocess
import sys
import tempfile
from pathlib import Path

import worked
from notation import NO_NUMBER, WIDEST, question

MOST_LEFT_OUT = 80


def numbers(case):
    return [place if table.number is None else table.number for place, table in enumerate(case.tables)]


def typeable(case):
    given = numbers(case)
    plain = case.cut == case.behind == case.tail == 0 and case.scratch == 2048 and len(case.tables) <= 8
    named = NO_NUMBER not in given and len(set(given)) == len(given) and all(number <= 7 for number in given)
    distinct = len({table.name for table in case.tables}) == len(case.tables)
    whole = all(calendar.kind == 24 and calendar.count == len(calendar.windows) and calendar.short == calendar.cut == 0
                for calendar in case.calendars)
    return plain and named and distinct and whole and all(kept(table) for table in case.tables)


def kept(table):
    """Whether a table keeps the rules of data, so that a CSV file can have it."""
    inside = table.kind in (20, 23) and len(table.bounds) == len(table.columns) and all(
        bound <= WIDEST for bound in table.bounds)
    return inside and len(table.rows) <= 1024 and all(
        abs(cell) <= bound for row in table.rows for cell, bound in zip(row, table.bounds))


def asked(case):
    """What is typed: names that only the worked questions know are written by number."""
    text = case.ask
    for table in case.absent:
        text = re.sub(r'\b%s\b' % table.name, '@%d' % table.number, text)
        text = re.sub(r'\bm\.n\b', 'm.0', text)
    if worked.UNBOUND in question(case.ask, case.tables + case.absent, case.calendars):
        text = re.sub(r'\bx\b', '#255', text)
    return text


def written(path, columns, rows):
    """A CSV file."""
    path.write_text(','.join(columns) + '\n' + ''.join(','.join(map(str, row)) + '\n' for row in rows))
    return path


def session(case, folder):
    lines = ['.reset']
    prefix = case.name.replace('^', '_').replace('*', '_')
    for place, calendar in enumerate(case.calendars):
        path = written(folder / ('%s_%d.csv' % (prefix, place)), ['weekday', 'first', 'end'], calendar.windows)
        again = any(calendar.name == other.name for other in case.calendars[:place])
        lines.append('.load %s as calendar named %s%s' % (path, calendar.name, '_%d' % place if again else ''))
    for number, table in zip(numbers(case), case.tables):
        path = written(folder / ('%s_%s.csv' % (prefix, table.name)), table.columns, table.rows)
        bounds = ' '.join('bound %s %d' % pair for pair in zip(table.columns, table.bounds))
        lines.append('.load %s as %s named %s numbered %d %s' % (path, table.collection, table.name, number, bounds))
    return lines + ['.mode words', asked(case), '.bytes', '.lines']


def held(case, printed):
    """Whether what the shell printed for a case is what was worked out."""
    bytes_shown = printed.split('desk> .bytes\n')[1].split('desk> .lines\n')[0]
    rest = printed.split('desk> .lines\n')[1]
    if bytes.fromhex(bytes_shown.replace('\n', ' ')) != question(case.ask, case.tables + case.absent, case.calendars):
        return False
    if case.number:
        return '\nrefused %d, ' % case.number in printed
    return '\nanswer %s\n' % ' '.join(map(str, case.gives)) in printed and rest == case.plan


def main():
    cases = [case for case in worked.cases() if typeable(case)]
    left_out = len(worked.cases()) - len(cases)
    faults = 0
    with tempfile.TemporaryDirectory() as folder:
        lines = ['.echo on'] + [line for case in cases for line in session(case, Path(folder))]
        ended = subprocess.run([str(Path(sys.argv[1]).resolve())], input='\n'.join(lines) + '\n', text=True, capture_output=True,
                               timeout=600, check=False)
    parts = ended.stdout.split('desk> .reset\n')[1:]
    if len(parts) != len(cases):
        sys.exit('typed: %d answers to %d questions' % (len(parts), len(cases)))
    for case, part in zip(cases, parts):
        if not held(case, part):
            faults += 1
            print('%s: %s\n%s' % (case.name, case.ask, part[:1000]))
    print('typed: %d questions, %d left out, %d faults' % (len(cases), left_out, faults))
    sys.exit(1 if faults or left_out > MOST_LEFT_OUT else 0)


if __name__ == '__main__':
    main()
