"""Document 02, request E12: how many outages are survived."""
from notation import Table
from outages import Outages

TITLE = 'Document 02, E12: how many outages we survive'

TUGS = Table('Tugs', 'bag', 'tug pull', (1, 30), (2, 40), (3, 20))
BERTHS = Table('Berths', 'bag', 'berth tug', (1, 1), (2, 3))
TWICE = Table('Twice', 'set', 'n', (1,), (1,), (2,))
NONE = Table('None', 'list', 'n')
STORED = TUGS.by_column(2, 2, 2, 60, 20, 39)
TWELVE = Table('Twelve', 'bag', 'n', *[(row,) for row in range(12)])
THIRTEEN = Table('Thirteen', 'bag', 'n', *[(row,) for row in range(13)])

COUNT = 'how many give true and how many false'
POSITION = 'taken by position (the others removed, order kept)'
MONOID = '55, another monoid'
TABLE = '56, an absent table or one with more than 12 rows'

PULL = 'all{ 59 < sum{ t.pull | t <- Tugs } }'
STRONG = 'some{ 35 < t.pull | t <- Tugs }'


def pull(left):
    return sum(row[1] for row in left) > 59


def strong(left):
    return any(row[1] > 35 for row in left)


CASES = [
    Outages('outages-pull', COUNT, [TUGS], 0, PULL, [3, 5], plain=pull,
            says='70 of tugs 1 and 2, 60 of 2 and 3, 90 of all; 50, one tug alone and none are too little'),
    Outages('outages-strong', COUNT, [TUGS], 0, STRONG, [4, 4], plain=strong, says='With tug 2, or without it'),
    Outages('outages-by-column', COUNT, [STORED], 0, STRONG, [4, 4], plain=strong),
    Outages('outages-served', COUNT, [TUGS, BERTHS], 0, 'all{ some{ t.tug = b.tug | t <- Tugs } | b <- Berths }', [2, 6],
            plain=lambda left: {1, 3} <= {row[0] for row in left}, says='Tugs 1 and 3, with or without tug 2'),
    Outages('outages-berths', COUNT, [TUGS, BERTHS], 1, 'all{ some{ t.tug = b.tug | t <- Tugs } | b <- Berths }', [4, 0],
            plain=lambda left: True, says='Every berth that is left is served'),
    Outages('outages-not-named', COUNT, [TUGS], 0, 'some{ true }', [8, 0], plain=lambda left: True),
    Outages('outages-pairs', COUNT, [TUGS], 0, 'some{ t.pull < u.pull | t <- Tugs, u <- Tugs }', [4, 4], plain=lambda left: len(left) > 1,
            says='A subset of one tug, or of none, has no such two: the same rows are left wherever the table is named'),
    Outages('outages-equal-rows', POSITION, [TWICE], 0, 'some{ x.n = 1 | x <- Twice }', [6, 2], plain=lambda left: (1,) in [tuple(row) for row in left],
            says='Two rows are 1: neither is left in 2 subsets of 8'),
    Outages('outages-no-rows', COUNT, [NONE], 0, 'all{ false | x <- None }', [1, 0], plain=lambda left: True, says='The empty subset'),
    Outages('outages-twelve', COUNT, [TWELVE], 0, 'some{ x.n = 7 | x <- Twelve }', [2048, 2048], plain=lambda left: any(row[0] == 7 for row in left)),
    Outages('outages-sum', MONOID, [TUGS], 0, 'sum{ t.pull | t <- Tugs }', refused=55),
    Outages('outages-inner-some', MONOID, [TUGS], 0, 'sum{ 1 | some{ true } }', refused=55, says='The question\'s own monoid'),
    Outages('outages-both', MONOID, [TUGS], 9, 'max{ t.pull | t <- Tugs }', refused=55, says='55 first'),
    Outages('outages-absent', TABLE, [TUGS], 1, 'some{ true }', refused=56),
    Outages('outages-above-7', TABLE, [TUGS], 8, 'some{ true }', refused=56),
    Outages('outages-thirteen', TABLE, [THIRTEEN], 0, 'some{ true }', refused=56),
]
