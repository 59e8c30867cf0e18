"""Document 02, request E5: a table declares a bound for each of its columns."""
from case import Case
from edges import BERTHS, BOLLARDS, EMPTY, LISTING_PLAN, asked, listing, ones
from notation import WIDEST, Table, bagof, least, most

TITLE = 'Document 02, E5: column bounds in the table record'

TIGHT_BERTHS = Table('TightBerths', 'bag', 'number length', (1, 90), (2, 70), bounds=[2, 90])
TIGHT_BOLLARDS = Table('TightBollards', 'bag', 'berth tonnes', (1, 50), (1, 60), bounds=[1, 60])
RATED = Table('Rated', 'bag', 'berth tonnes', (1, 50), (1, 60), bounds=[WIDEST, 300])
REACHED = Table('Reached', 'bag', 'n', (300,), (-300,), bounds=[300])
ABOVE = Table('Above', 'bag', 'n', (300,), (301,), bounds=[300])
BELOW = Table('Below', 'bag', 'n', (-301,), (300,), bounds=[300])
LEAST = Table('Least', 'bag', 'n', (-2 ** 31,))
LEAST_BEYOND = Table('LeastBeyond', 'bag', 'n', (-2 ** 31,), bounds=[WIDEST - 1])
ZEROS = Table('Zeros', 'bag', 'n', (0,), (0,), bounds=[0])
NOT_ZERO = Table('NotZero', 'bag', 'n', (1,), bounds=[0])
TOO_WIDE = Table('TooWide', 'bag', 'n', bounds=[WIDEST + 1])
ALL_ONES = Table('AllOnes', 'bag', 'n', (1,), bounds=[2 ** 32 - 1])
EACH = Table('Each', 'bag', 'small large', (1, -100), bounds=[1, 100])
TURNED = Table('Turned', 'bag', 'small large', (1, -100), bounds=[100, 1])
LAST = Table('Last', 'bag', 'n', *[(row,) for row in range(1024)], bounds=[1022])
MANY = Table('Many', 'bag', 'n', *[(row,) for row in range(1025)], bounds=[5])
OLD = Table('Old', 'bag', 'n', (5,), bounds=[])
NARROW = Table('Narrow', 'bag', 'n', (3,), (-5,), bounds=[2 ** 22])
WIDER = Table('Wider', 'bag', 'n', (3,), (-5,), bounds=[2 ** 22 + 1])
ONE_ROW = Table('OneRow', 'bag', 'n', (1,), bounds=[2 ** 13])
UNLIKE = Table('Unlike', 'bag', 'wide one', (7, 1), (-9, 1), bounds=[WIDEST, 1])

# Bound 2^62.
MOST = '-2147483648 * -2147483648'

PRODUCTS = 'sum{ a.tonnes * b.tonnes | a <- %s, b <- %s }'


def over(count, table, head):
    """A sum over so many generators."""
    return 'sum{ %s | %s }' % (head, ', '.join('x%d <- %s' % (x, table) for x in range(count)))


def joins(count):
    return 'join 0 true\n' * count


READING = [
    Case('e5-listing', 'E5', 'one four-byte unsigned bound per column', [TIGHT_BERTHS, TIGHT_BOLLARDS],
         asked('bag', TIGHT_BERTHS, TIGHT_BOLLARDS), LISTING_PLAN % 'bag', [2, 1, 110, 2, 0],
         plain=lambda: bagof(listing(TIGHT_BERTHS, TIGHT_BOLLARDS)),
         says='The listing of document 01, each bound as small as it can be.'),
    Case('e5-reached', 'E5', "each cell's magnitude must not exceed it", [REACHED],
         'bag{ r.n | r <- Reached }',
         '''join 0 true
            reduce bag (. 0 $0) true''', [2, -300, 300], plain=lambda: bagof(r.n for r in REACHED)),
    Case('e5-above', 'E5', "43, a cell beyond its column's", [ABOVE], 'sum{ 7 }', refused=43),
    Case('e5-below', 'E5', "43, a cell beyond its column's", [BELOW], 'sum{ 7 }', refused=43),
    Case('e5-least-cell', 'E5', "each cell's magnitude must not exceed it", [LEAST], 'max{ l.n | l <- Least }',
         '''join 0 true
            reduce max (. 0 $0) true''', [-2147483648], plain=lambda: most(l.n for l in LEAST),
         says='Its magnitude is 2^31.'),
    Case('e5-least-cell-beyond', 'E5', "43, a cell beyond its column's", [LEAST_BEYOND], 'sum{ 7 }', refused=43),
    Case('e5-zeros', 'E5', 'at most 2^31', [ZEROS], 'min{ z.n | z <- Zeros }',
         '''join 0 true
            reduce min (. 0 $0) true''', [0], plain=lambda: least(z.n for z in ZEROS),
         says='0 is a bound like any other.'),
    Case('e5-not-zero', 'E5', "43, a cell beyond its column's", [NOT_ZERO], 'sum{ 7 }', refused=43),
    Case('e5-bound-over', 'E5', '43, a bound over 2^31', [TOO_WIDE], 'sum{ 7 }', refused=43,
         says='Also without a row.'),
    Case('e5-bound-all-ones', 'E5', 'four-byte unsigned', [ALL_ONES], 'sum{ 7 }', refused=43,
         says='It is 2^32 − 1, not −1.'),
    Case('e5-each-column', 'E5', 'one .. bound per column', [EACH], 'bag{ e | e <- Each }',
         '''join 0 true
            reduce bag $0 true''', [1, 1, -100], plain=lambda: bagof(tuple(e) for e in EACH)),
    Case('e5-turned', 'E5', 'one .. bound per column', [TURNED], 'sum{ 7 }', refused=43),
    Case('e5-last-row', 'E5', "each cell's magnitude", [LAST], 'sum{ 7 }', refused=43,
         says='Only the last of 1,024 cells is beyond.'),
]

ORDER = [
    Case('e5-unnamed', 'E5', '43, .. at the same record', [BERTHS, ABOVE], 'sum{ b.length | b <- Berths }',
         refused=43, says='Tables that the question does not name are judged, too.'),
    Case('e5-form-of-01', 'E5', 'between its row count and its cells', [OLD], 'sum{ 7 }', refused=12),
    Case('e5-12-first', 'E5', 'after 12', [MANY], 'sum{ 7 }', refused=12,
         says='1,025 rows, and cells beyond the bound.'),
    Case('e5-12-earlier', 'E5', 'at the same record', [OLD, ABOVE], 'sum{ 7 }', refused=12),
    Case('e5-before-11', 'E5', 'at the same record', [ABOVE, BERTHS], 'sum{ 7 }', refused=43, cut=1,
         says='The next record is cut short.'),
    Case('e5-before-13', 'E5', 'at the same record', [ABOVE] + [EMPTY] * 8, 'sum{ 7 }', refused=43),
    Case('e5-after-13', 'E5', 'at the same record', [EMPTY] * 8 + [ABOVE], 'sum{ 7 }', refused=13),
    Case('e5-before-21', 'E5', 'at the same record, after 12', [ABOVE], ones(342), refused=43, says='4,105 bytes.'),
]

BOUNDS = [
    Case('e5-products', 'E5', 'no bollard carries over 300 tonnes', [RATED], PRODUCTS % ('Rated', 'Rated'),
         '''join 0 true
            join 0 true
            reduce sum (* (. 1 $0) (. 1 $1)) true''', [12100],
         plain=lambda: sum(a.tonnes * b.tonnes for a in RATED for b in RATED),
         says='Bound 300 · 300 · 2^20.'),
    Case('e5-products-wide', 'E5', 'Sums of cell products are refused by 28', [BOLLARDS],
         PRODUCTS % ('Bollards', 'Bollards'), refused=28),
    Case('e5-products-within', 'E5', 'no bollard carries over 300 tonnes', [BERTHS, RATED],
         'bag{ (b.number, sum{ l.tonnes * l.tonnes | l <- Rated, l.berth = b.number }) | b <- Berths }',
         '''join 0 true
            outer 1 (= (. 0 $1) (. 0 $0))
            nest 1 sum (* (. 1 $1) (. 1 $1)) true
            reduce bag (rec (. 0 $0) $1) true''', [2, 1, 6100, 2, 0],
         plain=lambda: bagof((b.number, sum(l.tonnes ** 2 for l in RATED if l.berth == b.number))
                             for b in BERTHS)),
    Case('e5-2^62', 'E5', 'the bound rule .. use it for 2^31', [NARROW], over(4, 'Narrow', 'x0.n'),
         joins(4) + 'reduce sum (. 0 $0) true', [-16],
         plain=lambda: sum(x.n for x in NARROW for _ in range(8)), says='Bound 2^22 · 2^40.'),
    Case('e5-2^62-over', 'E5', 'the bound rule .. use it for 2^31', [WIDER], over(4, 'Wider', 'x0.n'), refused=28,
         says='The same cells, a bound of 2^22 + 1.'),
    Case('e5-rows-do-not-count', 'E5', 'the bound rule .. use it for 2^31', [ONE_ROW],
         over(5, 'OneRow', 'x0.n'), refused=28,
         says='Bound 2^13 · 2^50: each generator is a factor of 1,024 however many rows there are.'),
    Case('e5-zeros-over-seven', 'E5', 'the bound rule .. use it for 2^31', [ZEROS], over(7, 'Zeros', 'x0.n'),
         joins(7) + 'reduce sum (. 0 $0) true', [0], plain=lambda: 0),
    Case('e5-zero-factor', 'E5', 'the bound rule .. use it for 2^31', [ZEROS],
         'max{ z.n * (%s + 1) | z <- Zeros }' % MOST, refused=28, says='The other factor has a bound of its own.'),
    Case('e5-which-column', 'E5', 'Reading a cell promises that bound', [UNLIKE],
         'max{ u.wide * u.wide * u.one | u <- Unlike }',
         '''join 0 true
            reduce max (* (* (. 0 $0) (. 0 $0)) (. 1 $0)) true''', [81],
         plain=lambda: most(u.wide * u.wide * u.one for u in UNLIKE), says='Bound 2^62.'),
    Case('e5-which-column-over', 'E5', 'Reading a cell promises that bound', [UNLIKE],
         'max{ u.wide * u.wide * u.one + u.one | u <- Unlike }', refused=28),
    Case('e5-which-table', 'E5', 'Reading a cell promises that bound', [UNLIKE, NARROW],
         'max{ n.n * n.n + v.one | v <- Unlike, n <- Narrow }',
         '''join 0 true
            join 1 true
            reduce max (+ (* (. 0 $1) (. 0 $1)) (. 1 $0)) true''', [26],
         plain=lambda: most(n.n * n.n + v.one for v in UNLIKE for n in NARROW),
         says='Bound 2^44 + 1; by the first column of the other table it would be 2^62 + 1.'),
    Case('e5-through-rows', 'E5', 'the bound rule .. use it for 2^31', [UNLIKE],
         'sum{ r.0 * r.0 | r <- bag{ (u.one, u.wide) | u <- Unlike } }',
         '''join 0 true
            reduce sum (* (. 1 $0) (. 1 $0)) true''', [2],
         plain=lambda: sum(u.one * u.one for u in UNLIKE),
         says="The record's first field is the second column."),
    Case('e5-through-rows-over', 'E5', 'the bound rule .. use it for 2^31', [UNLIKE],
         'sum{ r.1 * r.1 | r <- bag{ (u.one, u.wide) | u <- Unlike } }', refused=28),
    Case('e5-choice', 'E5', 'the bound rule .. use it for 2^31', [UNLIKE],
         'sum{ if u.one = 1 then u.one * u.one else u.wide | u <- Unlike }',
         '''join 0 true
            reduce sum (if (= (. 1 $0) 1) (* (. 1 $0) (. 1 $0)) (. 0 $0)) true''', [2],
         plain=lambda: sum(u.one * u.one if u.one == 1 else u.wide for u in UNLIKE), says='Bound 2^41.'),
    Case('e5-no-rows', 'E5', 'the bound rule .. use it for 2^31', [EMPTY], 'sum{ e.n * e.n | e <- Empty }', refused=28,
         says='What is declared counts, not the cells that are there.'),
]

CASES = READING + ORDER + BOUNDS

LEFT_OUT = []
