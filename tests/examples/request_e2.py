"""Document 02, request E2: a choice of two numbers or two truths."""
from case import Case
from edges import BERTHS, EMPTY
from notation import Table, bagof, least, most, setof
from request_e1 import HEIGHTS, at

TITLE = 'Document 02, E2: a choice inside a question'

TIDES = Table('Tides', 'bag', 'berth spring neap', (1, 540, 390), (2, 510, 410), (2, 480, 430))

# Bound 2^62.
MOST = '-2147483648 * -2147483648'


def tides(berth):
    return [t for t in TIDES if t.berth == berth.number]


def choices(count):
    """v0 bound to 1 and each next to a choice of the last and itself."""
    bound = ''.join(', let v%d = if true then v%d else v%d' % (v + 1, v, v) for v in range(count))
    return 'sum{ v%d | let v0 = 1%s }' % (count, bound)


def chosen(count):
    return '1' if count == 0 else '(if true %s %s)' % (chosen(count - 1), chosen(count - 1))


MEANING = [
    Case('e2-true', 'E2', 'the first of the two where the truth is true', [],
         'sum{ if true then 5 else 7 }',
         '''join unit true
            reduce sum (if true 5 7) true''', [5], plain=lambda: 5 if True else 7,
         says='No rule of the normal form is about a choice, so none is worked out.'),
    Case('e2-false', 'E2', 'and else the second', [], 'sum{ if false then 5 else 7 }',
         '''join unit true
            reduce sum (if false 5 7) true''', [7], plain=lambda: 5 if False else 7),
    Case('e2-truths', 'E2', 'two numbers or two truths', [], 'all{ if false then false else true }',
         '''join unit true
            reduce all (if false false true) true''', [1], plain=lambda: False if False else True),
    Case('e2-of-a-row', 'E2', 'the first of the two where the truth is true and else the second', [TIDES],
         'bag{ (t.berth, if t.spring < 500 then t.neap else t.spring) | t <- Tides }',
         '''join 0 true
            reduce bag (rec (. 0 $0) (if (< (. 1 $0) 500) (. 2 $0) (. 1 $0))) true''',
         [3, 1, 540, 2, 430, 2, 510],
         plain=lambda: bagof((t.berth, t.neap if t.spring < 500 else t.spring) for t in TIDES)),
    Case('e2-spring-and-neap', 'E2', 'type a question twice, for spring and neap', [BERTHS, TIDES],
         '''bag{ (b.number, if season = 1 then sum{ s.spring | s <- Tides, s.berth = b.number }
                            else sum{ n.neap | n <- Tides, n.berth = b.number })
                | let season = 1, b <- Berths }''',
         '''join 0 true
            outer 1 (= (. 0 $1) (. 0 $0))
            nest 1 sum (. 1 $1) true
            outer 1 (= (. 0 $2) (. 0 $0))
            nest 2 sum (. 2 $2) true
            reduce bag (rec (. 0 $0) (if (= 1 1) $1 $2)) true''', [2, 1, 540, 2, 990],
         plain=lambda: bagof((b.number, sum(t.spring for t in tides(b))) for b in BERTHS)),
    Case('e2-in-a-choice', 'E2', 'the first of the two where the truth is true and else the second', [TIDES],
         '''bag{ if (if t.berth = 1 then true else t.neap < 420) then (if t.spring < 520 then 1 else 2) else 3
                | t <- Tides }''',
         '''join 0 true
            reduce bag (if (if (= (. 0 $0) 1) true (< (. 2 $0) 420)) (if (< (. 1 $0) 520) 1 2) 3) true''',
         [3, 1, 2, 3],
         plain=lambda: bagof((1 if t.spring < 520 else 2) if (True if t.berth == 1 else t.neap < 420) else 3
                             for t in TIDES)),
    Case('e2-over-nothing', 'E2', 'and else the second', [EMPTY],
         'sum{ if false then 1 else max{ e.n | e <- Empty } }',
         '''join unit true
            outer 0 true
            nest 1 max (. 0 $1) true
            reduce sum (if false 1 $1) true''', [0], plain=lambda: most(e.n for e in EMPTY)),
]

PLANNED = [
    Case('e2-written-order', 'E2', 'Comprehensions inside it are planned in written order',
         [BERTHS, HEIGHTS, TIDES],
         '''bag{ if some{ h.berth = b.number | h <- Heights }
                 then max{ k.cm | k <- Heights, k.berth = b.number }
                 else min{ t.neap | t <- Tides, t.berth = b.number } | b <- Berths }''',
         '''join 0 true
            outer 1 true
            nest 1 some (= (. 0 $1) (. 0 $0)) true
            outer 1 (= (. 0 $2) (. 0 $0))
            nest 2 max (. 1 $2) true
            outer 2 (= (. 0 $3) (. 0 $0))
            nest 3 min (. 2 $3) true
            reduce bag (if $1 $2 $3) true''', [2, -45, 410],
         plain=lambda: bagof(most(at(b)) if at(b) else least(t.neap for t in tides(b)) for b in BERTHS),
         says='Truth, first, second, for each berth: a plan is made without looking at rows.'),
    Case('e2-condition-before-head', 'E2', 'Comprehensions inside it are planned in written order',
         [BERTHS, HEIGHTS, TIDES],
         '''bag{ sum{ 1 | h <- Heights, h.berth = b.number }
                | b <- Berths, if b.length < 80 then some{ t.berth = b.number | t <- Tides } else false }''',
         '''join 0 true
            outer 2 true
            nest 1 some (= (. 0 $1) (. 0 $0)) true
            outer 1 (= (. 0 $2) (. 0 $0))
            nest 2 sum 1 true
            reduce bag $2 (if (< (. 1 $0) 80) $1 false)''', [1, 0],
         plain=lambda: bagof(len(at(b)) for b in BERTHS if (bool(tides(b)) if b.length < 80 else False))),
    Case('e2-condition', 'E2', 'the last generator of its comprehension that it mentions', [TIDES],
         'bag{ t.berth | t <- Tides, if t.berth = 1 then t.neap < 400 else t.spring < 500 }',
         '''join 0 (if (= (. 0 $0) 1) (< (. 2 $0) 400) (< (. 1 $0) 500))
            reduce bag (. 0 $0) true''', [2, 1, 2],
         plain=lambda: bagof(t.berth for t in TIDES if (t.neap < 400 if t.berth == 1 else t.spring < 500))),
    Case('e2-mentions', 'E2', 'the last generator of its comprehension that it mentions',
         [BERTHS, HEIGHTS, TIDES],
         '''sum{ 1 | b <- Berths, h <- Heights, t <- Tides,
                     if b.number = 2 then true else h.cm = -50 }''',
         '''join 0 true
            join 1 (if (= (. 0 $0) 2) true (= (. 1 $1) -50))
            join 2 true
            reduce sum 1 true''', [12],
         plain=lambda: sum(1 for b in BERTHS for h in HEIGHTS for t in TIDES
                           if (True if b.number == 2 else h.cm == -50)),
         says='Any of its three terms counts, not the truth alone.'),
    Case('e2-some-stays', 'E2', 'a condition that is a "some" comprehension', [BERTHS, HEIGHTS],
         '''set{ b.number | b <- Berths,
                     if true then some{ h.berth = b.number | h <- Heights } else false }''',
         '''join 0 true
            outer 1 true
            nest 1 some (= (. 0 $1) (. 0 $0)) true
            reduce set (. 0 $0) (if true $1 false)''', [1, 1],
         plain=lambda: setof(b.number for b in BERTHS if (bool(at(b)) if True else False)),
         says='The condition is the choice, not the "some" in it.'),
    Case('e2-and-stays', 'E2', 'an "and" condition becomes two', [BERTHS],
         'bag{ b.number | b <- Berths, if true then 1 < b.number and b.length < 80 else false }',
         '''join 0 (if true (and (< 1 (. 0 $0)) (< (. 1 $0) 80)) false)
            reduce bag (. 0 $0) true''', [1, 2],
         plain=lambda: bagof(b.number for b in BERTHS
                             if (1 < b.number and b.length < 80 if True else False)),
         says='The condition is the choice, not the "and" in it.'),
]

LIMITS = [
    Case('e2-bound-larger', 'E2', 'Its bound is the larger one', [], 'sum{ if true then 1 else %s }' % MOST,
         '''join unit true
            reduce sum (if true 1 (* -2147483648 -2147483648)) true''', [1], plain=lambda: 1,
         says='Its bound is 2^62.'),
    Case('e2-bound-over', 'E2', 'Its bound is the larger one', [],
         'sum{ (if true then 1 else %s) + 1 }' % MOST, refused=28, says='Though 1 is taken.'),
    Case('e2-bound-not-the-sum', 'E2', 'Its bound is the larger one', [],
         'sum{ if false then %s else %s }' % (MOST, MOST),
         '''join unit true
            reduce sum (if false (* -2147483648 -2147483648) (* -2147483648 -2147483648)) true''',
         [4611686018427387904], plain=lambda: 2 ** 62),
    Case('e2-bound-within', 'E2', 'a number in the normal form', [],
         'sum{ if true then 1 else %s + 1 }' % MOST, refused=28, says='Also where it is never taken.'),
    Case('e2-bound-in-the-truth', 'E2', 'a number in the normal form', [],
         'sum{ if %s + 1 < 1 then 1 else 2 }' % MOST, refused=28),
    Case('e2-bound-of-the-truth', 'E2', 'Its bound is the larger one', [],
         'sum{ (if %s < 1 then 1 else 2) + 1 }' % MOST,
         '''join unit true
            reduce sum (+ (if (< (* -2147483648 -2147483648) 1) 1 2) 1) true''', [3],
         plain=lambda: (1 if 2 ** 62 < 1 else 2) + 1, says='Of the two numbers; the truth has none.'),
    Case('e2-383-nodes', 'E2', 'It is one node', [], choices(7),
         'join unit true\nreduce sum %s true' % chosen(7), [1], plain=lambda: 1,
         says='Each choice doubles its nodes and adds itself and its truth.'),
    Case('e2-767-nodes', 'E2', 'It is one node', [], choices(8), refused=27),
    Case('e2-number-and-truth', 'E2', 'two numbers or two truths', [], 'list{ if true then 1 else true }',
         refused=25),
    Case('e2-number-decides', 'E2', 'a truth, then', [], 'sum{ if 1 then 1 else 2 }', refused=25),
    Case('e2-records', 'E2', 'two numbers or two truths', [], 'list{ if true then (1,) else (1,) }',
         refused=25),
    Case('e2-tables', 'E2', 'two numbers or two truths', [EMPTY], 'list{ if true then Empty else Empty }',
         refused=25),
]

CASES = MEANING + PLANNED + LIMITS

LEFT_OUT = []
