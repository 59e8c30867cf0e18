"""Document 02, request E1: max over at least one row is its greatest head, and min."""
from case import Case
from edges import BERTHS, EMPTY, S
from notation import Table, bagof, least, most

TITLE = 'Document 02, E1: drying heights under max'

HEIGHTS = Table('Heights', 'bag', 'berth cm', (1, -50), (1, -60), (1, -45))

WITHIN = '''join 0 true
            outer 1 (= (. 0 $1) (. 0 $0))
            nest 1 max (. 1 $1) true
            reduce %s true'''


def at(berth):
    return [h.cm for h in HEIGHTS if h.berth == berth.number]


CASES = [
    Case('e1-highest-of-three', 'E1', 'max over at least one qualifying row is the greatest head',
         [HEIGHTS], 'max{ h.cm | h <- Heights }',
         '''join 0 true
            reduce max (. 1 $0) true''', [-45], plain=lambda: most(h.cm for h in HEIGHTS)),
    Case('e1-max-over-nothing', 'E1', 'over none it is 0', [EMPTY], 'max{ e.n | e <- Empty }',
         '''join 0 true
            reduce max (. 0 $0) true''', [0], plain=lambda: most(e.n for e in EMPTY)),
    Case('e1-min-over-nothing', 'E1', 'the mirrored rule', [EMPTY], 'min{ e.n | e <- Empty }',
         '''join 0 true
            reduce min (. 0 $0) true''', [0], plain=lambda: least(e.n for e in EMPTY)),
    Case('e1-max-where-false', 'E1', 'over none it is 0', [], 'max{ -3 | false }',
         '''join unit false
            reduce max -3 true''', [0], plain=lambda: most([])),
    Case('e1-min-of-3', 'E1', 'the mirrored rule', [], 'min{ 3 }',
         '''join unit true
            reduce min 3 true''', [3], plain=lambda: least([3])),
    Case('e1-min-of-minus-3', 'E1', 'the mirrored rule', [], 'min{ -3 }',
         '''join unit true
            reduce min -3 true''', [-3], plain=lambda: least([-3])),
    Case('e1-least-number', 'E1', 'at least one qualifying row', [],
         'max{ 0 - -2147483648 * -2147483648 }',
         '''join unit true
            reduce max (- 0 (* -2147483648 -2147483648)) true''', [-4611686018427387904],
         plain=lambda: most([-2 ** 62]), says='A head may be −2^62, so that is not "nothing".'),
    Case('e1-within-berths', 'E1', 'over none it is 0', [BERTHS, HEIGHTS],
         'bag{ (b.number, max{ h.cm | h <- Heights, h.berth = b.number }) | b <- Berths }',
         WITHIN % 'bag (rec (. 0 $0) $1)', [2, 1, -45, 2, 0],
         plain=lambda: bagof((b.number, most(at(b))) for b in BERTHS),
         says='Berth 2 has no height: its row is padded, and a pad is no qualifying row.'),
    Case('e1-inner-over-nothing', 'E1', 'over none it is 0', [BERTHS, HEIGHTS],
         'max{ max{ h.cm | h <- Heights, h.berth = b.number } | b <- Berths }',
         WITHIN % 'max $1', [0], plain=lambda: most(most(at(b)) for b in BERTHS),
         says='The 0 of berth 2 is a head like any other.'),
    Case('e1-pad-behind-a-row', 'E1', 'at least one qualifying row', [BERTHS, HEIGHTS],
         '''bag{ (b.number, max{ h.cm | h <- Heights, h.berth = b.number, k <- Heights, h.cm + 20 < k.cm })
                | b <- Berths }''',
         '''join 0 true
            outer 1 (= (. 0 $1) (. 0 $0))
            outer 1 (< (+ (. 1 $1) 20) (. 1 $2))
            nest 1 max (. 1 $1) true
            reduce bag (rec (. 0 $0) $1) true''', [2, 1, 0, 2, 0],
         plain=lambda: bagof((b.number, most(h for h in at(b) for k in HEIGHTS if h + 20 < k.cm))
                             for b in BERTHS),
         says='The heights of berth 1 meet the first condition, and none is over 20 below another.'),
    Case('e1-min-over-a-set', 'E1', "max's generators", [S], 'min{ s.n | s <- S }',
         '''join 0 true
            reduce min (. 0 $0) true''', [1], plain=lambda: least(s.n for s in S)),
    Case('e1-min-some', 'E1', 'max\'s rule for "some" conditions', [BERTHS, HEIGHTS],
         'min{ b.length | b <- Berths, some{ h.berth = b.number | h <- Heights } }',
         '''join 0 true
            join 1 (= (. 0 $1) (. 0 $0))
            reduce min (. 1 $0) true''', [90],
         plain=lambda: least(b.length for b in BERTHS if at(b)),
         says='''Flattened, a join in place of outer and nest: `one`, `join 0 true`,
                 `join 1 (= (. 0 $1) (. 0 $0))`, `reduce min (. 1 $0) true`.'''),
    Case('e1-min-bound', 'E1', "max's bound", [EMPTY], 'min{ e.n * e.n + 1 | e <- Empty }', refused=28,
         says='Also over no row.'),
    Case('e1-min-of-a-truth', 'E1', 'min', [], 'min{ true }', refused=25),
]

LEFT_OUT = []
