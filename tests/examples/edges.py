"""Document 01: "At the edges", the starred cases and the others; a case of each other refusal that
data and question can have; and the slips that it names."""
from case import Case
from notation import Table, bagof, listof, most, setof

TITLE = 'Document 01, "At the edges", "When the engine declines" and "Slips the fitter\'s drill has met"'

BERTHS = Table('Berths', 'bag', 'number length', (1, 90), (2, 70))
BOLLARDS = Table('Bollards', 'bag', 'berth tonnes', (1, 50), (1, 60))
NO_BERTHS = Table('NoBerths', 'bag', 'number length')
NO_BOLLARDS = Table('NoBollards', 'bag', 'berth tonnes')
TWICE = Table('Twice', 'bag', 'number length', (1, 90), (1, 90))
EMPTY = Table('Empty', 'bag', 'n')
S = Table('S', 'set', 'n', (1,), (2,), (2,))
L = Table('L', 'list', 'n', (1,), (2,), (3,))
CELLS = Table('Cells', 'bag', 'n', (2147483647,), (-5,))
FULL = Table('Full', 'bag', 'n', *[(row,) for row in range(1024)])
OVER = Table('Over', 'bag', 'n', *[(row,) for row in range(1025)])

LISTING_PLAN = '''join 0 true
                  outer 1 (= (. 0 $1) (. 0 $0))
                  nest 1 sum (. 1 $1) true
                  reduce %s (rec (. 0 $0) $1) true'''
CUBE = 'sum{ a.n | a <- Cells, b <- Cells, c <- Cells }'
CUBE_PLAN = '''join 0 true
               join 0 true
               join 0 true'''


def asked(monoid, berths, bollards):
    return '%s{ (b.number, sum{ l.tonnes | l <- %s, l.berth = b.number }) | b <- %s }' % (
        monoid, bollards.name, berths.name)


def listing(berths, bollards):
    return [(b.number, sum(l.tonnes for l in bollards if l.berth == b.number)) for b in berths]


def nested(place):
    """The operators of one sum over three generators, from a place on."""
    return 'outer 0 true\n' * 3 + 'nest %d sum (. 0 $%d) true\n' % (place, place)


def cube():
    return sum(a.n for a in CELLS for b in CELLS for c in CELLS)


def doublings(count):
    """v0 bound to 1 and each next to the last plus itself."""
    bound = ''.join(', let v%d = v%d + v%d' % (v + 1, v, v) for v in range(count))
    return 'sum{ v%d | let v0 = 1%s }' % (count, bound)


def doubled(count):
    return '1' if count == 0 else '(+ %s %s)' % (doubled(count - 1), doubled(count - 1))


def ones(count):
    """A sum of ones, the first of them on level `count` + 1."""
    return 'sum{ %s }' % ' + '.join(['1'] * count)


def added(count):
    return '1' if count == 1 else '(+ %s 1)' % added(count - 1)


STARRED = [
    Case('01-listing', '*', 'The listing above', [BERTHS, BOLLARDS], asked('bag', BERTHS, BOLLARDS),
         LISTING_PLAN % 'bag', [2, 1, 110, 2, 0], plain=lambda: bagof(listing(BERTHS, BOLLARDS))),
    Case('01-no-berths', '*', 'No berths: answer 0', [NO_BERTHS, BOLLARDS], asked('bag', NO_BERTHS, BOLLARDS),
         LISTING_PLAN % 'bag', [0], plain=lambda: bagof(listing(NO_BERTHS, BOLLARDS))),
    Case('01-no-bollards', '*', 'No bollards: berth 1 with 0, berth 2 with 0', [BERTHS, NO_BOLLARDS],
         asked('bag', BERTHS, NO_BOLLARDS), LISTING_PLAN % 'bag', [2, 1, 0, 2, 0],
         plain=lambda: bagof(listing(BERTHS, NO_BOLLARDS))),
    Case('01-berth-twice', '*', 'Berth row (1, 90) twice, no other', [TWICE, BOLLARDS],
         asked('bag', TWICE, BOLLARDS), LISTING_PLAN % 'bag', [2, 1, 110, 1, 110],
         plain=lambda: bagof(listing(TWICE, BOLLARDS))),
    Case('01-berth-twice-set', '*', 'As a set comprehension over the same rows: 1 1 110, with G 5',
         [TWICE, BOLLARDS], asked('set', TWICE, BOLLARDS), LISTING_PLAN % 'set', [1, 1, 110], G=5,
         plain=lambda: setof(listing(TWICE, BOLLARDS))),
    Case('01-sum-of-7', '*', 'Sum without qualifiers of 7: 7', [], 'sum{ 7 }',
         '''join unit true
            reduce sum 7 true''', [7], plain=lambda: 7),
    Case('01-all-over-nothing', '*', 'All over an empty table: true', [EMPTY],
         'all{ e.n < 0 | e <- Empty }',
         '''join 0 true
            reduce all (< (. 0 $0) 0) true''', [1], plain=lambda: all(e.n < 0 for e in EMPTY)),
    Case('01-max-of-minus-3', '*', 'Max of −3: 0; 02, E1: becomes −3', [], 'max{ -3 }',
         '''join unit true
            reduce max -3 true''', [-3], plain=lambda: most([-3])),
    Case('01-set-in-a-sum', '*', 'A set-table generator in a sum: 26', [S], 'sum{ s.n | s <- S }',
         refused=26),
    Case('01-set-in-a-set', '*', 'in a set: accepted', [S], 'set{ s.n | s <- S }',
         '''join 0 true
            reduce set (. 0 $0) true''', [2, 1, 2], G=4, plain=lambda: setof(s.n for s in S)),
]

OTHERS = [
    Case('01-bound-2^61', '', 'Sum of a cell over three generators: 2^61, accepted', [CELLS], CUBE,
         CUBE_PLAN + '''
         reduce sum (. 0 $0) true''', [8589934568], plain=cube),
    Case('01-bound-2^62', '', 'plus itself 2^62, accepted', [CELLS], 'sum{ s + s | let s = %s }' % CUBE,
         'join unit true\n' + nested(1) + nested(2) + 'reduce sum (+ $1 $2) true',
         [17179869136], plain=lambda: cube() + cube()),
    Case('01-bound-over', '', 'plus 1 more, 28', [CELLS], 'sum{ s + s + 1 | let s = %s }' % CUBE,
         refused=28),
    Case('01-bound-head-2^62', '', 'the cell plus itself under the sum: 2^62 too', [CELLS],
         'sum{ a.n + a.n | a <- Cells, b <- Cells, c <- Cells }',
         CUBE_PLAN + '''
         reduce sum (+ (. 0 $0) (. 0 $0)) true''', [17179869136], plain=lambda: 2 * cube()),
    Case('01-bound-head-over', '', 'and 1 more under the sum: 28', [CELLS],
         'sum{ a.n + a.n + 1 | a <- Cells, b <- Cells, c <- Cells }', refused=28),
    Case('01-512-nodes', '', 'Sum of v8, v0 bound to 1 and each next to the last plus itself: 512 nodes',
         [], doublings(8), 'join unit true\nreduce sum %s true' % doubled(8), [256],
         plain=lambda: 2 ** 8),
    Case('01-one-more-doubling', '', 'one more doubling, 27', [], doublings(9), refused=27),
    Case('01-1024-rows', '', '1,024 rows accepted', [FULL], 'sum{ f.n | f <- Full }',
         '''join 0 true
            reduce sum (. 0 $0) true''', [523776], plain=lambda: sum(f.n for f in FULL)),
    Case('01-1025-rows', '', '1,025 gives 12', [OVER], 'sum{ o.n | o <- Over }', refused=12),
]

DECLINED = [
    Case('01-cut-short', 'declines', '11: a record cut short', [BERTHS], 'sum{ 7 }', refused=11, cut=1,
         says='The last byte of the data is left off.'),
    Case('01-ninth-record', 'declines', '13: a ninth record', [EMPTY] * 9, 'sum{ 7 }', refused=13),
    Case('01-too-long', 'declines', '21: over 4,096 bytes', [], ones(342), refused=21, says='4,105 bytes.'),
    Case('01-left-over', 'declines', '22: bytes left over', [], 'sum{ 7 }', refused=22, behind=1,
         says='A byte 0 follows the question.'),
    Case('01-32-levels', 'declines', '23: a 33rd level', [], ones(31),
         'join unit true\nreduce sum %s true' % added(31), [31], plain=lambda: 31,
         says='The first 1 is on level 32.'),
    Case('01-33-levels', 'declines', '23: a 33rd level', [], ones(32), refused=23),
    Case('01-out-of-scope', 'declines', '24: a name out of scope', [], 'sum{ x }', refused=24),
    Case('01-truth-in-a-sum', 'declines', '25: a type that does not fit', [], 'sum{ true }', refused=25),
]

SLIPS = [
    Case('01-slip-grouping', 'slip', 'Grouping by equal cells, which melts repeated berths', [TWICE, BOLLARDS],
         '''sum{ r.1 | r <- bag{ (b.number, sum{ l.tonnes | l <- Bollards, l.berth = b.number })
                               | b <- Twice } }''',
         '''join 0 true
            outer 1 (= (. 0 $1) (. 0 $0))
            nest 1 sum (. 1 $1) true
            reduce sum $1 true''',
         [220], plain=lambda: sum(tonnes for number, tonnes in listing(TWICE, BOLLARDS))),
    Case('01-slip-pad', 'slip', 'Counting a pad as a row', [BERTHS, BOLLARDS],
         'bag{ (b.number, sum{ 1 | l <- Bollards, l.berth = b.number }) | b <- Berths }',
         '''join 0 true
            outer 1 (= (. 0 $1) (. 0 $0))
            nest 1 sum 1 true
            reduce bag (rec (. 0 $0) $1) true''',
         [2, 1, 2, 2, 0],
         plain=lambda: bagof((b.number, sum(l.berth == b.number for l in BOLLARDS)) for b in BERTHS)),
    Case('01-slip-inner-join', 'slip', 'An inner join, which drops that berth', [BERTHS, BOLLARDS],
         'bag{ b.number | b <- Berths, all{ l.tonnes < 50 | l <- Bollards, l.berth = b.number } }',
         '''join 0 true
            outer 1 (= (. 0 $1) (. 0 $0))
            nest 1 all (< (. 1 $1) 50) true
            reduce bag (. 0 $0) $1''',
         [1, 2],
         plain=lambda: bagof(b.number for b in BERTHS
                             if all(l.tonnes < 50 for l in BOLLARDS if l.berth == b.number))),
    Case('01-slip-some-in-a-bag', 'slip', 'Flattening "some" inside a bag, which repeats rows',
         [BERTHS, BOLLARDS],
         'bag{ b.number | b <- Berths, some{ l.berth = b.number | l <- Bollards } }',
         '''join 0 true
            outer 1 true
            nest 1 some (= (. 0 $1) (. 0 $0)) true
            reduce bag (. 0 $0) $1''',
         [1, 1],
         plain=lambda: bagof(b.number for b in BERTHS if any(l.berth == b.number for l in BOLLARDS))),
    Case('01-slip-copies', 'slip', 'Copying a term without renumbering: a list gone through twice', [L],
         'list{ (p, q) | let c = list{ x.n | x <- L, x.n < 3 }, p <- c, q <- c }',
         '''join 0 (< (. 0 $0) 3)
            join 0 (< (. 0 $1) 3)
            reduce list (rec (. 0 $0) (. 0 $1)) true''',
         [4, 1, 1, 1, 2, 2, 1, 2, 2],
         plain=lambda: listof((p, q) for c in [[x.n for x in L if x.n < 3]] for p in c for q in c)),
    Case('01-slip-capture', 'slip', 'Copying a term under a generator, which captures a name', [L],
         '''list{ sum{ c | z <- L, c < z.n }
                  | x <- L, let c = sum{ y.n | y <- L, y.n < x.n } }''',
         '''join 0 true
            outer 0 true
            outer 0 (< (. 0 $2) (. 0 $0))
            nest 2 sum (. 0 $2) true
            outer 0 (< (. 0 $3) (. 0 $0))
            nest 3 sum (. 0 $3) true
            nest 1 sum $3 (< $2 (. 0 $1))
            reduce list $1 true''',
         [3, 0, 2, 0],
         plain=lambda: listof(sum(c for z in L if c < z.n)
                              for x in L for c in [sum(y.n for y in L if y.n < x.n)])),
]

CASES = STARRED + OTHERS + DECLINED + SLIPS

LEFT_OUT = []
