#!/usr/bin/env python3
"""shapes.py OUT: questions that drive each recursion as deep as document 01's sizes allow, a line each:
name, data, calendars, question, the last three in hex ("-" for none). Each shape repeats one unit; its size is the
largest that the checker accepts: every question must be accepted, and with one unit more none is."""
import struct
import sys

LIST, BAG, SET, SUM, MAX, SOME, ALL = range(1, 8)
PLUS, MINUS, TIMES, EQUAL, LESS, AND, OR = range(6, 13)


def rec(kind, content):
    return struct.pack('<HH', len(content), kind) + content


def num(z):
    return rec(1, struct.pack('<i', z))


def tru(b):
    return rec(2, bytes([b]))


def name(x):
    return rec(3, struct.pack('<H', x))


def field(i, t):
    return rec(4, bytes([i]) + t)


def record(*ts):
    return rec(5, b''.join(ts))


def two(kind, a, b):
    return rec(kind, a + b)


def no(t):
    return rec(13, t)


def comp(monoid, qualifiers, head):
    return rec(14, bytes([monoid]) + b''.join(qualifiers) + head)


def table(k):
    return rec(15, bytes([k]))


def gen(x, t):
    return rec(16, struct.pack('<H', x) + t)


def bind(x, t):
    return rec(17, struct.pack('<H', x) + t)


def cond(t):
    return rec(18, t)


def choice(c, a, b):
    return rec(19, c + a + b)


def opened(t):
    """An open minute of the last calendar (document 02, E4)."""
    return rec(21, bytes([3]) + t)


def bag(kind, cells):
    """Table 0 with one column, which is declared 2^31, by row or by column."""
    return rec(kind, struct.pack('<BBBHI', 0, 2, 1, len(cells), 2 ** 31) + b''.join(struct.pack('<i', c) for c in cells))


NONE, ONE, TWO, EMPTY = b'', bag(20, [7]), bag(20, [7, 7]), bag(20, [])
# The same tables by column (document 02, E10).
BY_COLUMN = {ONE: bag(23, [14]), TWO: bag(23, [14, 0]), EMPTY: bag(23, [])}
# Four calendars of 32 windows each, none of them open at the minutes below.
HOURS = 4 * rec(24, bytes([32]) + b''.join(struct.pack('<BHH', i % 7, 1400 + i, 1440) for i in range(32)))
SHAPES = []


def shape(called, size, data, question, calendars=NONE):
    SHAPES.append((f'{called}-{size}', data, calendars, question))
    if data != NONE:
        SHAPES.append((f'{called}-columns-{size}', BY_COLUMN[data], calendars, question))


def deep(unit, base, size, room, first=0):
    """So many units around base, at most `room` of them in one term: bindings, then the term left over."""
    bindings, term, binder, inside = [], base, first, 0
    for _ in range(size):
        if inside == room:
            bindings.append(bind(binder, term))
            term, binder, inside = name(binder), binder + 1, 0
        term, inside = unit(term), inside + 1
    return bindings, term


def headed(monoid, unit, base, size, room, generators=(), first=0):
    """A comprehension whose head is that deep."""
    bindings, term = deep(unit, base, size, room, first)
    return comp(monoid, [*generators, *bindings], term)


def conditioned(unit, size, room, generators=(), first=0):
    """A comprehension with a condition that is that deep."""
    bindings, term = deep(unit, tru(1), size, room, first)
    return comp(BAG, [*generators, *bindings, cond(term)], num(1))


ONES = [num(1)] * 7
COLLECTED = [  # name, levels of a unit, unit, size over nothing, size over two rows
    ('rec', 1, lambda t: record(t), 238, 236),
    ('rec-left', 1, lambda t: record(t, num(1)), 123, 122),
    ('rec-right', 1, lambda t: record(num(1), t), 123, 122),
    ('rec8-left', 1, lambda t: record(t, *ONES), 31, 31),
    ('rec8-right', 1, lambda t: record(*ONES, t), 31, 31),
    ('bag', 1, lambda t: comp(BAG, [], t), 238, 236),
    ('set', 1, lambda t: comp(SET, [], t), 238, 236),
    ('list', 1, lambda t: comp(LIST, [], t), 238, 236),
    ('rec-bag', 2, lambda t: record(comp(BAG, [], t)), 119, 118),
    ('rec-bag-right', 2, lambda t: record(num(1), comp(BAG, [], t)), 81, 80),
    ('bag-condition', 1, lambda t: comp(BAG, [cond(tru(1))], t), 83, 82),
    ('field-rec', 2, lambda t: field(0, record(t)), 119, 118),
]
for called, levels, unit, over_none, over_two in COLLECTED:
    room = 28 // levels
    shape(called, over_none, NONE, headed(BAG, unit, num(1), over_none, room))
    bindings, term = deep(unit, num(1), over_two, room)
    shape(called + '-rows', over_two, TWO, comp(BAG, [*bindings, gen(200, table(0))], term))

TRUTHS = [  # name, levels of a unit, unit, size in a head, size in a condition, size around an open minute
    ('not', 1, no, 238, 236, 237),
    ('and-left', 1, lambda t: two(AND, t, tru(1)), 123, 122, 122),
    ('and-right', 1, lambda t: two(AND, tru(1), t), 123, 122, 122),
    ('or-left', 1, lambda t: two(OR, t, tru(0)), 123, 122, 122),
    ('or-right', 1, lambda t: two(OR, tru(0), t), 123, 122, 122),
    ('all', 1, lambda t: comp(ALL, [], t), 238, 236, 237),
    ('all-if', 2, lambda t: comp(ALL, [cond(t)], tru(1)), 81, 80, 80),
    ('some-if', 2, lambda t: comp(SOME, [cond(t)], tru(1)), 81, 80, 80),
    ('all-behind', 1, lambda t: comp(ALL, [cond(tru(1))], t), 83, 82, 82),
    ('some', 1, lambda t: comp(SOME, [], t), 238, 236, 237),
    ('not-all', 2, lambda t: no(comp(ALL, [], t)), 119, 117, 117),
    ('or-all', 2, lambda t: two(OR, tru(0), comp(ALL, [], t)), 81, 80, 80),
    ('choice-truth', 1, lambda t: choice(t, tru(1), tru(0)), 83, 82, 82),
    ('choice-all', 2, lambda t: choice(comp(ALL, [], t), tru(1), tru(0)), 61, 61, 61),
]
for called, levels, unit, in_head, in_condition, around in TRUTHS:
    shape(called + '-head', in_head, NONE, headed(ALL, unit, tru(1), in_head, 28 // levels))
    shape(called + '-condition', in_condition, NONE, conditioned(unit, in_condition, 27 // levels))
    bindings, term = deep(unit, opened(num(1)), around, 27 // levels)
    shape(called + '-of-open', around, NONE, comp(ALL, bindings, term), HOURS)

NUMBERS = [  # name, levels of a unit, unit, size in a head, size in an open minute
    ('plus-left', 1, lambda t: two(PLUS, t, num(1)), 123, 122),
    ('plus-right', 1, lambda t: two(PLUS, num(1), t), 123, 122),
    ('sum', 1, lambda t: comp(SUM, [], t), 238, 237),
    ('max', 1, lambda t: comp(MAX, [], t), 238, 237),
    ('plus-sum', 2, lambda t: two(PLUS, num(1), comp(SUM, [], t)), 81, 80),
    ('choice-first', 1, lambda t: choice(tru(1), t, num(1)), 83, 82),
    ('choice-second', 1, lambda t: choice(tru(0), num(1), t), 83, 82),
    ('choice-sum', 2, lambda t: choice(tru(0), num(1), comp(SUM, [], t)), 61, 61),
]
for called, levels, unit, size, inside in NUMBERS:
    shape(called, size, NONE, headed(SUM, unit, num(1), size, 28 // levels))
    bindings, term = deep(unit, num(1), inside, 27 // levels)
    shape('open-of-' + called, inside, NONE, comp(ALL, bindings, opened(term)), HOURS)

SHIPS = {  # how often a unit is in a ship's draught (document 02, E6), over nothing and over two rows
    'plus-left': (122, 121), 'plus-right': (122, 121), 'sum': (236, 234), 'max': (236, 234), 'plus-sum': (80, 79),
    'choice-first': (82, 81), 'choice-second': (82, 81), 'choice-sum': (61, 60),
}
for called, levels, unit, _, _ in NUMBERS:
    for data, rows, size in zip((NONE, TWO), ([], [gen(200, table(0))]), SHIPS[called]):
        bindings, term = deep(unit, num(1), size, 27 // levels)
        shape('ships-' + called + '-rows' * len(rows), size, data, comp(BAG, [*bindings, *rows], record(num(1), term)))

OPENED = [  # open minutes in one another: name, units in one term, unit, size
    ('open-choice', 14, lambda t: choice(opened(t), num(1), num(0)), 61),
    ('open-choice-second', 9, lambda t: choice(tru(0), num(1), choice(opened(t), num(1), num(0))), 35),
    ('open-sum', 9, lambda t: comp(SUM, [cond(opened(t))], num(1)), 60),
    ('open-max', 7, lambda t: comp(MAX, [cond(no(opened(t)))], num(1)), 48),
]
for called, room, unit, size in OPENED:
    bindings, term = deep(unit, num(1), size, room)
    shape(called, size, NONE, comp(ALL, bindings, opened(term)), HOURS)

# names, one bound to the other
n = 126
shape('names', n, NONE, comp(BAG, [bind(0, num(1))] + [bind(i + 1, name(i)) for i in range(n)], name(n)))
n = 84
shape('names-rec', n, NONE,
      comp(BAG, [bind(0, num(1))] + [bind(i + 1, record(name(i))) for i in range(n)], name(n)))
shape('generators-chain', n, ONE,
      comp(BAG, [gen(0, table(0))] + [gen(i + 1, comp(BAG, [], name(i))) for i in range(n)], name(n)))
n = 124
shape('generator-name', n, ONE,
      comp(BAG, [bind(0, comp(BAG, [], num(1)))] + [bind(i + 1, name(i)) for i in range(n)]
           + [gen(200, name(n))], name(200)))
n = 49
shape('generators-bags', n, ONE,
      comp(BAG, [bind(0, comp(BAG, [], num(1)))]
           + [bind(i + 1, comp(BAG, [gen(100 + i, name(i))], name(100 + i))) for i in range(n)]
           + [gen(99, name(n))], name(99)))
n = 118
bindings, term = deep(lambda t: record(t), num(1), n, 27)
fields, term = deep(lambda t: field(0, t), name(100), n, 27, 101)
shape('fields', n, NONE, comp(BAG, [*bindings, bind(100, deep(lambda t: record(t), num(1), n, 27)[1]), *fields], term))

# many qualifiers
n = 127
shape('conditions', n, NONE, comp(BAG, [cond(tru(1))] * n, num(1)))
shape('bindings', n, NONE, comp(BAG, [bind(i, num(1)) for i in range(n)], num(1)))
shape('generators', n, ONE, comp(BAG, [gen(i, table(0)) for i in range(n)], num(1)))
shape('first-deep', 29, NONE, comp(BAG, [cond(deep(no, tru(1), 29, 40)[1])] + [cond(tru(1))] * 100, num(1)))
shape('scope', 29, NONE,
      comp(BAG, [bind(0, deep(lambda t: record(t, *ONES), num(1), 29, 40)[1])] + [cond(tru(1))] * 7, num(1)))
shape('reader', 30, NONE,
      comp(BAG, [cond(tru(1))] * 7, deep(lambda t: record(*ONES, t), num(1), 30, 40)[1]))


def copies(each, times):
    """A comprehension of some generators, ranged over so many times."""
    return [bind(0, comp(BAG, [gen(100 + i, table(0)) for i in range(each)], num(1)))] \
        + [gen(1 + i, name(0)) for i in range(times)]


for each, times in ((5, 51), (10, 25), (20, 12), (30, 8)):
    shape(f'copies{each}', times, ONE, comp(BAG, copies(each, times), num(1)))
shape('copies-sum', 12, ONE, comp(BAG, copies(20, 12), comp(SUM, [], num(1))))
shape('copies-all', 12, ONE, comp(ALL, copies(20, 12), tru(1)))
shape('copies-all-empty', 12, EMPTY, comp(ALL, copies(20, 12), tru(1)))
shape('copies-set', 12, ONE, comp(SET, copies(20, 12), num(1)))

shape('copies-ships', 12, ONE, comp(BAG, copies(20, 12), record(num(1), num(1))))
shape('copies-ships-sum', 12, ONE, comp(BAG, copies(20, 12), record(num(1), comp(SUM, [], num(1)))))

INNER = [
    ('bags', BAG, lambda t: comp(BAG, [], t), num(1), [(20, 5, 189), (20, 8, 183), (20, 11, 70), (10, 12, 193), (12, 13, 189), (10, 16, 187)]),
    ('recs', BAG, lambda t: record(t), num(1), [(20, 5, 189), (20, 8, 183), (20, 11, 70)]),
    ('alls', ALL, lambda t: comp(ALL, [], t), tru(1), [(20, 5, 189), (20, 8, 183), (20, 11, 70)]),
    ('nots', ALL, no, tru(1), [(20, 3, 191), (20, 5, 189), (20, 8, 183), (20, 11, 70)]),
]
for called, monoid, unit, base, sizes in INNER:
    for each, times, size in sizes:
        shape(f'generators{each * times}-{called}', size, ONE,
              headed(monoid, unit, base, size, 27, copies(each, times), 40))
for each, times, size in ((20, 5, 185), (20, 8, 181), (20, 11, 68)):
    shape(f'generators{each * times}-alls-if', size, ONE,
          conditioned(lambda t: comp(ALL, [], t), size, 26, copies(each, times), 40))


def shared(each, times, again):
    """Generators shared twice: a comprehension of some, one that ranges over it so often, ranged over again."""
    return [bind(0, comp(BAG, [gen(100 + i, table(0)) for i in range(each)], num(1))),
            bind(1, comp(BAG, [gen(60 + i, name(0)) for i in range(times)], num(1)))] \
        + [gen(2 + i, name(1)) for i in range(again)]


for called, monoid, unit, base, _ in INNER:
    shape(f'shared150-{called}', 202, ONE, headed(monoid, unit, base, 202, 27, shared(5, 5, 6), 30))


def ranging(monoid, base, size, condition):
    """A generator in each of so many comprehensions, one inside the other."""
    count = [0]

    def unit(t):
        count[0] += 1
        return comp(monoid, [gen(count[0] - 1, table(0)), *condition], t)
    return headed(monoid, unit, base, size, 27, (), 120)


shape('ranging-bags', 82, ONE, ranging(BAG, num(1), 82, []))
shape('ranging-sets', 82, ONE, ranging(SET, num(1), 82, []))
shape('ranging-alls', 82, ONE, ranging(ALL, tru(1), 82, []))
shape('ranging-bags-if', 50, ONE, ranging(BAG, num(1), 50, [cond(tru(1))]))

# one head with many parts
EIGHT = [bind(0, record(*[num(1)] * 8)), bind(1, record(*[name(0)] * 7))]
shape('wide', 7, NONE, comp(BAG, EIGHT, record(*[name(1)] * 7, num(1))))
shape('wide-rows', 7, TWO, comp(BAG, [*EIGHT, gen(5, table(0))], record(*[name(1)] * 7)))

with open(sys.argv[1], 'w') as out:
    for called, data, calendars, question in SHAPES:
        out.write(f'{called} {data.hex() or "-"} {calendars.hex() or "-"} {question.hex()}\n')
