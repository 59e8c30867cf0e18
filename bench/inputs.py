#!/usr/bin/env python3
"""Writes what bench/answering.cpp measures: a line for each query with its name, its tables, its
calendars and its question, the last three in hexadecimal, separated by tabs. Tables have a key k and
a value v. A query over tables of 1,024 rows each is written "at 256" and "at 512" rows, too."""
import random
import sys
from pathlib import Path

sys.dont_write_bytecode = True
sys.path.insert(0, str(Path(__file__).resolve().parent.parent / 'tests' / 'examples'))

from notation import Calendar, Table, packed, question  # noqa: E402

ROWS = 1024
FEWER = [256, 512]


def table(name, collection, keys, bounds=None):
    """A value for each key; the same ones in each run."""
    chosen = random.Random(name)
    return Table(name, collection, 'k v', *[(key, chosen.randrange(1000)) for key in keys], bounds=bounds)


def tables(collection, *keys, bounds=None):
    """A, B and so on, each with its keys."""
    return [table(name, collection, of_one, bounds) for name, of_one in zip('ABC', keys)]


def shuffled(step, count, seed):
    """Keys that are all different."""
    keys = [row * step for row in range(count)]
    random.Random(seed).shuffle(keys)
    return keys


def below(limit, count, seed):
    chosen = random.Random(seed)
    return [chosen.randrange(limit) for _ in range(count)]


def mostly_odd(count, seed):
    """Nine keys in ten match no even key."""
    chosen = random.Random(seed)
    return [key | (chosen.randrange(10) != 0) for key in below(2 * count, count, seed)]


def long(count):
    """As many pairs as answers of 65,536 words have elements."""
    return tables('bag', below(100, ROWS, 13), below(100, count, 14))


def tight(rows):
    """Sums of products of two values are within 2^62 by the columns' bounds."""
    return tables('bag', below(rows, rows, 15), below(rows, rows, 16), bounds=[ROWS, 1000])


# Two turns from Monday to Friday, one on Saturday.
LOCK = Calendar('Lock', *[(day, first, end) for day in range(5) for first, end in ((360, 720), (780, 1200))],
                (5, 480, 720))

# Each with its tables of so many rows, and the calendars that are lent.
BY_ROWS = [
    ('correlated sum', 'bag{ (a.k, sum{ b.v | b <- B, b.k = a.k }) | a <- A }',
     lambda rows: tables('bag', shuffled(1, rows, 1), below(rows, rows, 2))),
    ('equi-join list', 'list{ (a.v, b.v) | a <- A, b <- B, a.k = b.k }',
     lambda rows: tables('list', shuffled(1, rows, 3), below(rows, rows, 4))),
    ('theta count', 'sum{ 1 | a <- A, b <- B, a.k < b.k }',
     lambda rows: tables('bag', below(2**30, rows, 5), below(2**30, rows, 6))),
    ('exists', 'sum{ 1 | a <- A, some{ b.k = a.k | b <- B } }',
     lambda rows: tables('bag', shuffled(2, rows, 7), mostly_odd(rows, 8))),
    ('cross sum', 'sum{ a.k + b.k | a <- A, b <- B }',
     lambda rows: tables('bag', below(2**30, rows, 9), below(2**30, rows, 10))),
    ('three tables', 'list{ (a.v, b.v, c.v) | a <- A, b <- B, a.k = b.k, c <- C, b.v = c.k }',
     lambda rows: tables('list', shuffled(1, rows, 3), below(rows, rows, 4), shuffled(1, rows, 17))),
    ('bags inside', 'bag{ (a.k, bag{ b.v | b <- B, b.k = a.k }) | a <- A }',
     lambda rows: tables('bag', shuffled(1, rows, 1), below(rows, rows, 2))),
    ('choice in sum', 'sum{ a.v * (if a.k < b.k then b.v else 1000 - b.v) | a <- A, b <- B }', tight),
    ('max per group', 'set{ (a.k, max{ b.v | b <- B, b.k = a.k }) | a <- A }',
     lambda rows: tables('set', below(rows // 10, rows, 18), below(rows // 10, rows, 19))),
    ('open hours', 'sum{ 1 | a <- A, b <- B, open(Lock, a.k + b.v) }',
     lambda rows: tables('bag', below(2**24, rows, 20), below(rows, rows, 21)), LOCK),
    ('choice in test', 'sum{ a.v | a <- A, b <- B, (if a.k < b.k then a.k * b.v else b.k * a.v) < 100000 }', tight),
]

OTHERS = [
    ('bag to order', 'bag{ (a.k, a.v) | a <- A }', tables('bag', below(100, 1000, 11))),
    ('record inside', 'bag{ ((a.k, a.v), a.k) | a <- A }', tables('bag', below(100, 1000, 11))),
    ('lists of one', 'bag{ list{ a.k } | a <- A }', tables('bag', below(100, 500, 12))),
    ('long bag', 'bag{ (a.k, b.v) | a <- A, b <- B }', long(32)),
    ('long record inside', 'bag{ ((a.k, b.v), a.v) | a <- A, b <- B }', long(21)),
    ('long lists of one', 'bag{ list{ a.k + b.v } | a <- A, b <- B }', long(32)),
    ('long numbers', 'bag{ a.k + b.k | a <- A, b <- B }', tables('bag', below(2**30, ROWS, 22), below(2**30, 64, 23))),
]


def write(name, text, stored, calendars):
    lent = b''.join(calendar.packed() for calendar in calendars)
    print(name, packed(stored).hex(), lent.hex(), question(text, stored, calendars).hex(), sep='\t')


for name, text, of_rows, *calendars in BY_ROWS:
    write(name, text, of_rows(ROWS), calendars)
    for rows in FEWER:
        write('%s at %d' % (name, rows), text, of_rows(rows), calendars)
for name, text, stored in OTHERS:
    write(name, text, stored, [])
