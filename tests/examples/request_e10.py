"""Document 02, request E10: tables stored by column. What a table stores is written by hand, column by column."""
from case import Case
from edges import BERTHS, BOLLARDS, EMPTY, FULL, NO_BOLLARDS, OVER, S, TWICE, asked, listing, ones
from notation import Table, bagof, most, setof
from request_e1 import HEIGHTS
from request_e5 import ABOVE, ALL_ONES, BELOW, LEAST_BEYOND, OLD, PRODUCTS, RATED, REACHED, TOO_WIDE
from request_e9 import TENS

TITLE = 'Document 02, E10: tables stored by column'

GREATEST, LEAST = 2 ** 31 - 1, -2 ** 31

KIND = 'Add kind 23, the same table rearranged'
EITHER = 'The engine reads either kind, with the same answers'
FOLDED = '0, −1, 1, −2 become 0, 1, 2, 3'
WRAPPING = 'the difference wrapping at 32 bits, then folded'
REFUSALS = 'refusals .. take kind 23 wherever they name 20'

BERTHS_23 = BERTHS.by_column(2, 2, 180, 39)
BOLLARDS_23 = BOLLARDS.by_column(2, 0, 100, 20)
RATED_23 = RATED.by_column(2, 0, 100, 20)
TWICE_23 = TWICE.by_column(2, 0, 180, 0)
EMPTY_23 = EMPTY.by_column()
S_23 = S.by_column(2, 2, 0)
HEIGHTS_23 = HEIGHTS.by_column(2, 0, 0, 99, 19, 30)
FULL_23 = FULL.by_column(0, *[2] * 1023)

FALLING = Table('Falling', 'list', 'n', (5,), (7,), (4,)).by_column(10, 4, 5)
STEPS = Table('Steps', 'list', 'n', (0,), (-1,), (0,), (-2,)).by_column(0, 1, 2, 3)
ANEW = Table('Anew', 'list', 'a b', (5, 5), (5, 5)).by_column(10, 0, 10, 0)
ONE_ROW = Table('OneRow', 'list', 'a b c', (1, -2, 3)).by_column(2, 3, 6)
UP_TO_DOWN = Table('UpToDown', 'list', 'n', (GREATEST,), (LEAST,), (GREATEST,)).by_column(4294967294, 2, 1)
DOWN_TO_UP = Table('DownToUp', 'list', 'n', (LEAST,), (GREATEST,), (0,)).by_column(4294967295, 1, 4294967293)
JUST_SO = Table('JustSo', 'list', 'n', (2 ** 30,), (-2 ** 30,)).by_column(2147483648, 4294967295)
ONE_MORE = Table('OneMore', 'list', 'n', (2 ** 30,), (-2 ** 30 - 1,)).by_column(2147483648, 4294967294)
WRAPS_BEYOND = Table('WrapsBeyond', 'list', 'n', (GREATEST,), (LEAST,), bounds=[GREATEST]).by_column(4294967294, 2)
WRAPS_WITHIN = Table('WrapsWithin', 'list', 'n', (GREATEST,), (-GREATEST,), bounds=[GREATEST]).by_column(4294967294, 4)
SECOND = Table('Second', 'bag', 'a b', (9, 1), (9, 2), bounds=[9, 1]).by_column(18, 0, 2, 2)


def listing_case(name, paper, tables, gives, berths=BERTHS, bollards=BOLLARDS, says=''):
    """The listing's question; its plan is the same whatever the kinds and the order of the records."""
    plan = '''join 0 true
              outer 1 (= (. 0 $1) (. 0 $0))
              nest 1 sum (. 1 $1) true
              reduce bag (rec (. 0 $0) $1) true'''
    return Case(name, 'E10', paper, tables, asked('bag', berths, bollards), plan, gives,
                plain=lambda: bagof(listing(berths, bollards)), says=says)


def rows_case(name, paper, table, says=''):
    """All rows of a list."""
    gives = [len(table.rows)] + [cell for row in table for cell in row]
    return Case(name, 'E10', paper, [table], 'list{ r | r <- %s }' % table.name,
                '''join 0 true
                   reduce list $0 true''', gives, plain=lambda: [tuple(row) for row in table], says=says)


def sum_case(name, paper, table, gives, says=''):
    return Case(name, 'E10', paper, [table], 'sum{ r.n | r <- %s }' % table.name,
                '''join 0 true
                   reduce sum (. 0 $0) true''', [gives], plain=lambda: sum(r.n for r in table), says=says)


def broken(name, paper, tables, refused, says='', ask='sum{ 7 }', cut=0):
    return Case(name, 'E10', paper, tables, ask, refused=refused, cut=cut, says=says)


READING = [
    listing_case('e10-listing', KIND, [BERTHS_23, BOLLARDS_23], [2, 1, 110, 2, 0]),
    listing_case('e10-berths', EITHER, [BERTHS_23, BOLLARDS], [2, 1, 110, 2, 0], says='One table of each kind.'),
    listing_case('e10-bollards', EITHER, [BERTHS, BOLLARDS_23], [2, 1, 110, 2, 0]),
    listing_case('e10-reversed', EITHER, [BOLLARDS_23.numbered(1), BERTHS.numbered(0)], [2, 1, 110, 2, 0],
                 says='In another order of the records, too.'),
    listing_case('e10-twice', KIND, [TWICE_23, BOLLARDS_23], [2, 1, 110, 1, 110], berths=TWICE,
                 says='Repeated berths stay apart.'),
    listing_case('e10-no-bollards', KIND, [BERTHS_23, NO_BOLLARDS.by_column()], [2, 1, 0, 2, 0],
                 bollards=NO_BOLLARDS),
    rows_case('e10-falling', 'its difference from the cell above', FALLING,
              says='5, 2 and −3 folded; not differences from what is stored above.'),
    rows_case('e10-steps', FOLDED, STEPS),
    rows_case('e10-anew', '(the first from 0)', ANEW, says='Each column begins anew.'),
    rows_case('e10-one-row', 'columns one after another', ONE_ROW),
    rows_case('e10-greatest-to-least', WRAPPING, UP_TO_DOWN, says='The differences wrap to 1 and −1.'),
    rows_case('e10-least-to-greatest', WRAPPING, DOWN_TO_UP, says='A difference of −1, and −2^31 + 1, which does not wrap.'),
    rows_case('e10-just-so', WRAPPING, JUST_SO, says='−2^31 does not wrap.'),
    rows_case('e10-one-more', WRAPPING, ONE_MORE, says='−2^31 − 1 wraps to 2^31 − 1.'),
    sum_case('e10-empty', KIND, EMPTY_23, 0),
    sum_case('e10-1024-rows', 'the same length', FULL_23, 523776),
    Case('e10-last-row', 'E10', EITHER, [FULL_23], 'bag{ f.n | f <- Full, 1021 < f.n }',
         '''join 0 (< 1021 (. 0 $0))
            reduce bag (. 0 $0) true''', [2, 1022, 1023], plain=lambda: [f.n for f in FULL if 1021 < f.n]),
    Case('e10-set', 'E10', EITHER, [S_23], 'set{ s.n | s <- S }',
         '''join 0 true
            reduce set (. 0 $0) true''', [2, 1, 2], G=4, plain=lambda: setof(s.n for s in S)),
    Case('e10-set-in-a-sum', 'E10', EITHER, [S_23], 'sum{ s.n | s <- S }', refused=26),
    Case('e10-heights', 'E10', EITHER, [HEIGHTS_23], 'max{ h.cm | h <- Heights }',
         '''join 0 true
            reduce max (. 1 $0) true''', [-45], plain=lambda: most(h.cm for h in HEIGHTS)),
    Case('e10-bare-table', 'E10', EITHER, [BOLLARDS_23, BERTHS], 'bag{ (b.number, Bollards) | b <- Berths }',
         '''join 1 true
            outer 0 true
            nest 1 bag $1 true
            reduce bag (rec (. 0 $0) $1) true''', [2, 1, 2, 1, 50, 1, 60, 2, 2, 1, 50, 1, 60],
         plain=lambda: bagof((b.number, bagof(tuple(l) for l in BOLLARDS)) for b in BERTHS)),
    Case('e10-its-bounds', 'E10', 'the header and bounds of kind 20', [RATED_23], PRODUCTS % ('Rated', 'Rated'),
         '''join 0 true
            join 0 true
            reduce sum (* (. 1 $0) (. 1 $1)) true''', [12100],
         plain=lambda: sum(a.tonnes * b.tonnes for a in RATED for b in RATED)),
    Case('e10-its-bounds-wide', 'E10', 'the header and bounds of kind 20', [BOLLARDS_23],
         PRODUCTS % ('Bollards', 'Bollards'), refused=28),
    Case('e10-its-columns', 'E10', 'the header and bounds of kind 20', [S_23], 'set{ s.1 | s <- S }', refused=25),
]

BOUNDS = [
    sum_case('e10-reached', KIND, REACHED.by_column(600, 1199), 0,
             says='300 and −300 under 300: what is stored may be beyond it.'),
    rows_case('e10-wraps-within', WRAPPING, WRAPS_WITHIN),
    broken('e10-wraps-beyond', REFUSALS, [WRAPS_BEYOND], 43, says='A difference of 1 to a cell beyond.'),
    broken('e10-above', REFUSALS, [ABOVE.by_column(600, 2)], 43),
    broken('e10-below', REFUSALS, [BELOW.by_column(601, 1202)], 43, says='The first cell.'),
    broken('e10-least-beyond', REFUSALS, [LEAST_BEYOND.by_column(4294967295)], 43),
    broken('e10-second-column', REFUSALS, [SECOND], 43),
    broken('e10-bound-over', REFUSALS, [TOO_WIDE.by_column()], 43),
    broken('e10-bound-of-ones', REFUSALS, [ALL_ONES.by_column(2)], 43),
]

BROKEN = [
    broken('e10-kind-22', REFUSALS, [BERTHS.of_kind(22)], 11),
    broken('e10-kind-24', REFUSALS, [BERTHS.of_kind(24)], 11),
    broken('e10-kind-279', REFUSALS, [BERTHS.of_kind(256 + 23)], 11, says='Its low byte is 23.'),
    broken('e10-cut', REFUSALS, [BERTHS_23], 11, cut=1, says='The last byte of the data is left off.'),
    broken('e10-without-bounds', REFUSALS, [OLD.by_column(10)], 12),
    broken('e10-1025-rows', REFUSALS, [OVER.by_column(0, *[2] * 1024)], 12),
    broken('e10-number-8', REFUSALS, [BERTHS_23.numbered(8)], 50),
    broken('e10-number-in-both', REFUSALS, [BERTHS.numbered(2), BOLLARDS_23.numbered(2)], 51),
    broken('e10-number-in-both-reversed', REFUSALS, [BOLLARDS_23.numbered(2), BERTHS.numbered(2)], 51),
    broken('e10-number-twice', REFUSALS, [BERTHS_23.numbered(2), BOLLARDS_23.numbered(2)], 51),
    broken('e10-12-before-50', REFUSALS, [OVER.by_column(0, *[2] * 1024).numbered(8)], 12),
    broken('e10-50-before-43', REFUSALS, [ABOVE.by_column(600, 2).numbered(8)], 50),
    broken('e10-51-before-43', REFUSALS, [BERTHS.numbered(0), ABOVE.by_column(600, 2).numbered(0)], 51),
    broken('e10-43-earlier', REFUSALS, [ABOVE.by_column(600, 2), BERTHS.of_kind(22)], 43),
    broken('e10-ninth', REFUSALS, TENS + [EMPTY_23.numbered(0)], 13),
    broken('e10-before-21', REFUSALS, [ABOVE.by_column(600, 2)], 43, ask=ones(342), says='4,105 bytes.'),
]

CASES = READING + BOUNDS + BROKEN

LEFT_OUT = []
