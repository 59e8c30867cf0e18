"""Document 02, request E9: a table's number is written in its record."""
from case import Case
from edges import BERTHS, BOLLARDS, EMPTY, OVER, S, asked, listing, ones
from notation import NO_NUMBER, Table, bagof
from request_e5 import ABOVE, PRODUCTS, RATED

TITLE = 'Document 02, E9: table numbers written out'

MISSING = Table('Missing', 'bag', 'n')
ANY = 'sum{ m.n | m <- Missing }'

# Eight tables of one row: ten times its number.
TENS = [Table('T%d' % number, 'bag', 'n', (10 * number,)).numbered(number) for number in range(8)]

LISTING = asked('bag', BERTHS, BOLLARDS)
ORDER_PAPER = 'The same records in another order give the same answer'
AT_RECORD = 'both at their record, after 12 and before 43, 50 first'


def listing_plan(berths, bollards):
    return '''join %d true
              outer %d (= (. 0 $1) (. 0 $0))
              nest 1 sum (. 1 $1) true
              reduce bag (rec (. 0 $0) $1) true''' % (berths, bollards)


def listing_case(name, paper, tables, berths, bollards, says=''):
    return Case(name, 'E9', paper, tables, LISTING, listing_plan(berths, bollards), [2, 1, 110, 2, 0],
                plain=lambda: bagof(listing(BERTHS, BOLLARDS)), says=says)


def absent(name, paper, tables, number, says='', ask=ANY, refused=25):
    return Case(name, 'E9', paper, tables, ask, refused=refused, absent=[MISSING.numbered(number)], says=says)


def broken(name, paper, tables, refused, says='', ask='sum{ 7 }', cut=0):
    return Case(name, 'E9', paper, tables, ask, refused=refused, cut=cut, says=says)


READING = [
    listing_case('e9-listing', 'the printed case use the new form', [BERTHS.numbered(0), BOLLARDS.numbered(1)], 0, 1),
    listing_case('e9-reversed', ORDER_PAPER, [BOLLARDS.numbered(1), BERTHS.numbered(0)], 0, 1,
                 says='The plan is the same, too.'),
    listing_case('e9-exchanged', 'The number is written', [BERTHS.numbered(1), BOLLARDS.numbered(0)], 1, 0,
                 says='The question names the numbers that are written.'),
    listing_case('e9-skipped', 'numbers may be skipped', [BERTHS.numbered(7), BOLLARDS.numbered(3)], 7, 3),
    listing_case('e9-skipped-reversed', 'Records may stand in any order and numbers may be skipped',
                 [BOLLARDS.numbered(3), EMPTY.numbered(0), BERTHS.numbered(7)], 7, 3),
    Case('e9-eight', 'E9', 'one byte, 0 to 7', TENS, 'sum{ a.n + b.n | a <- T3, b <- T5 }',
         '''join 3 true
            join 5 true
            reduce sum (+ (. 0 $0) (. 0 $1)) true''', [80],
         plain=lambda: sum(a.n + b.n for a in TENS[3] for b in TENS[5])),
    Case('e9-eight-backwards', 'E9', ORDER_PAPER, TENS[::-1], 'sum{ a.n + b.n | a <- T3, b <- T5 }',
         '''join 3 true
            join 5 true
            reduce sum (+ (. 0 $0) (. 0 $1)) true''', [80],
         plain=lambda: sum(a.n + b.n for a in TENS[3] for b in TENS[5])),
    Case('e9-seven-alone', 'E9', 'numbers may be skipped', [BOLLARDS.numbered(7)], 'sum{ l.tonnes | l <- Bollards }',
         '''join 7 true
            reduce sum (. 1 $0) true''', [110], plain=lambda: sum(l.tonnes for l in BOLLARDS)),
    Case('e9-bare-table', 'E9', 'The number is written', [BOLLARDS.numbered(6), BERTHS.numbered(2)],
         'bag{ (b.number, Bollards) | b <- Berths }',
         '''join 2 true
            outer 6 true
            nest 1 bag $1 true
            reduce bag (rec (. 0 $0) $1) true''', [2, 1, 2, 1, 50, 1, 60, 2, 2, 1, 50, 1, 60],
         plain=lambda: bagof((b.number, bagof(tuple(l) for l in BOLLARDS)) for b in BERTHS)),
    Case('e9-its-bounds', 'E9', 'The number is written', [BOLLARDS.numbered(4), RATED.numbered(2)],
         PRODUCTS % ('Rated', 'Rated'),
         '''join 2 true
            join 2 true
            reduce sum (* (. 1 $0) (. 1 $1)) true''', [12100],
         plain=lambda: sum(a.tonnes * b.tonnes for a in RATED for b in RATED)),
    Case('e9-its-bounds-wide', 'E9', 'The number is written', [BOLLARDS.numbered(4), RATED.numbered(2)],
         PRODUCTS % ('Bollards', 'Bollards'), refused=28),
    Case('e9-its-collection', 'E9', 'The number is written', [S.numbered(5), BERTHS.numbered(1)],
         'sum{ s.n | s <- S }', refused=26),
    Case('e9-its-columns', 'E9', 'The number is written', [BERTHS.numbered(5), S.numbered(1)],
         'set{ s.1 | s <- S }', refused=25, says='The set has one column; the first record has two.'),
]

ABSENT = [
    absent('e9-absent-0', 'naming an absent number is 25', [TENS[3], TENS[7]], 0),
    absent('e9-absent-between', 'naming an absent number is 25', [TENS[7], TENS[3]], 5),
    absent('e9-absent-position', 'naming an absent number is 25', [TENS[1], TENS[2]], 0,
           says='A record stands at that position.'),
    absent('e9-absent-all', 'naming an absent number is 25', [], 0),
    absent('e9-absent-8', 'naming an absent number is 25', TENS, 8),
    absent('e9-absent-255', 'naming an absent number is 25', TENS, 255),
    absent('e9-absent-unused', 'naming an absent number is 25', [TENS[3]], 4, ask='sum{ 7 | let u = %s }' % ANY,
           says='Parts that are never used count.'),
    absent('e9-absent-24-first', 'naming an absent number is 25', [TENS[3]], 4, ask='sum{ x | m <- Missing }',
           refused=24),
    absent('e9-absent-26-later', 'naming an absent number is 25', [S.numbered(3)], 4,
           ask='sum{ s.n + %s | s <- S }' % ANY),
]

BROKEN = [
    broken('e9-8', '50, a number above 7', [BERTHS.numbered(8)], 50),
    broken('e9-255', '50, a number above 7', [BERTHS.numbered(255)], 50),
    broken('e9-8-unnamed', '50, a number above 7', [BERTHS.numbered(0), BOLLARDS.numbered(8)], 50,
           ask='sum{ b.length | b <- Berths }', says='Tables that the question does not name are judged, too.'),
    broken('e9-twice', '51, a number already used', [BERTHS.numbered(0), BOLLARDS.numbered(0)], 51),
    broken('e9-twice-apart', '51, a number already used', [BERTHS.numbered(7), EMPTY.numbered(0), BOLLARDS.numbered(7)], 51),
    broken('e9-twice-the-same', '51, a number already used', [EMPTY.numbered(2), EMPTY.numbered(2)], 51,
           says='The same record twice.'),
    broken('e9-9-twice', AT_RECORD, [BERTHS.numbered(9), BOLLARDS.numbered(9)], 50),
    broken('e9-without-number', 'ahead of the collection byte', [BERTHS.numbered(NO_NUMBER)], 12,
           says='A record in the form before this request.'),
    broken('e9-12-before-50', AT_RECORD, [OVER.numbered(8)], 12, says='1,025 rows.'),
    broken('e9-12-before-51', AT_RECORD, [BERTHS.numbered(0), OVER.numbered(0)], 12, says='1,025 rows.'),
    broken('e9-11-before-50', AT_RECORD, [BERTHS.numbered(8)], 11, cut=1, says='The last byte of the data is left off.'),
    broken('e9-50-before-43', AT_RECORD, [ABOVE.numbered(8)], 50),
    broken('e9-51-before-43', AT_RECORD, [BERTHS.numbered(0), ABOVE.numbered(0)], 51),
    broken('e9-43-earlier', AT_RECORD, [ABOVE.numbered(0), BERTHS.numbered(8)], 43),
    broken('e9-43-earlier-51', AT_RECORD, [ABOVE.numbered(0), BERTHS.numbered(0)], 43),
    broken('e9-50-earlier', AT_RECORD, [BERTHS.numbered(8), ABOVE.numbered(0)], 50),
    broken('e9-51-earlier', AT_RECORD, [EMPTY.numbered(0), EMPTY.numbered(0), OVER.numbered(1)], 51),
    broken('e9-50-before-11', AT_RECORD, [BERTHS.numbered(8), BOLLARDS.numbered(0)], 50, cut=1,
           says='The next record is cut short.'),
    broken('e9-after-13', AT_RECORD, TENS + [EMPTY.numbered(0)], 13, says='A ninth record, whatever its number.'),
    broken('e9-after-13-above', AT_RECORD, TENS + [EMPTY.numbered(8)], 13),
    broken('e9-before-13', AT_RECORD, TENS[:7] + [EMPTY.numbered(0), EMPTY.numbered(7)], 51),
    broken('e9-before-21', AT_RECORD, [BERTHS.numbered(8)], 50, ask=ones(342), says='4,105 bytes.'),
]

CASES = READING + ABSENT + BROKEN

LEFT_OUT = []
