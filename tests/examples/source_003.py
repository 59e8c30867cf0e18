"""Source 003: Grust and Scholl, Hybrid Strategies for Query Translation and Optimisation."""
from case import Case
from notation import Table, bagof, listof, most, setof

TITLE = 'Source 003: Hybrid Strategies for Query Translation and Optimisation'

X = Table('X', 'set', 'k A', (2, 5), (3, 5), (2, 6))
Y = Table('Y', 'set', 'A', (5,), (7,))
NOTHING = Table('Nothing', 'bag', 'n')
XS = Table('Xs', 'list', 'n', (3,), (1,), (2,), (3,))
YS = Table('Ys', 'list', 'n', (1,), (2,), (3,))
TS = Table('Ts', 'list', 'n', (2,), (5,))
XB = Table('Xb', 'bag', 'n', (1,), (2,), (3,))
YB = Table('Yb', 'bag', 'n', (1,), (2,))
XN = Table('Xn', 'set', 'a b', (1, 5), (2, 6), (3, 5))
YN = Table('Yn', 'set', 'a b', (5, 1), (6, 0))
X2 = Table('X2', 'set', 'n', (1,), (2,), (3,))
Y2 = Table('Y2', 'set', 'n', (2,), (9,))
Z2 = Table('Z2', 'set', 'n', (2,), (3,))
DEPT = Table('Dept', 'bag', 'no budg', (1, 5000), (2, 20000), (3, 9000))
EMP = Table('Emp', 'bag', 'dno sal', (1, 100), (1, 200), (2, 300))


def low_budget():
    return bagof(sum(e.sal for e in EMP if e.dno == d.no) for d in DEPT if d.budg < 10000)


CASES = [
    Case('003-1-join', '§1', '{ ⟨x, y⟩ | x ← X, y ← Y, x = 2, x.A = y.A }', [X, Y],
         'set{ (x, y) | x <- X, y <- Y, x.k = 2, x.A = y.A }',
         '''join 0 (= (. 0 $0) 2)
            join 1 (= (. 1 $0) (. 0 $1))
            reduce set (rec $0 $1) true''',
         [1, 2, 5, 5], plain=lambda: setof((x, y) for x in X for y in Y if x.k == 2 and x.A == y.A)),
    Case('003-2.2-select-list', '§2.2', '[ x | x ← xs, p x ]^list', [XS],
         'list{ x | x <- Xs, x.n > 1 }',
         '''join 0 (< 1 (. 0 $0))
            reduce list $0 true''',
         [3, 3, 2, 3], plain=lambda: listof(x for x in XS if x.n > 1)),
    Case('003-2.2-select-bag', '§2.2', '[ x | x ← xs, p x ]^bag', [XS],
         'bag{ x | x <- Xs, x.n > 1 }',
         '''join 0 (< 1 (. 0 $0))
            reduce bag $0 true''',
         [3, 2, 3, 3], plain=lambda: bagof(x for x in XS if x.n > 1)),
    Case('003-2.2-select-set', '§2.2', '[ x | x ← xs, p x ]^set', [XS],
         'set{ x | x <- Xs, x.n > 1 }',
         '''join 0 (< 1 (. 0 $0))
            reduce set $0 true''',
         [2, 2, 3], G=4, plain=lambda: setof(x for x in XS if x.n > 1)),
    Case('003-2.3-low-budget', '§2.3, example 1',
         '''[ [ e.sal | e ← emp, d' ← dept, e.dno = d'.no, d.no = d'.no ]^sum
            | d ← dept, d.budg < 10000 ]^bag''', [DEPT, EMP],
         '''bag{ sum{ e.sal | e <- Emp, f <- Dept, e.dno = f.no, d.no = f.no }
                 | d <- Dept, d.budg < 10000 }''',
         '''join 0 (< (. 1 $0) 10000)
            outer 1 true
            outer 0 (and (= (. 0 $1) (. 0 $2)) (= (. 0 $0) (. 0 $2)))
            nest 1 sum (. 1 $1) true
            reduce bag $1 true''',
         [2, 0, 300], plain=low_budget),
    Case('003-fig.11-low-budget', 'figure 11; §4.1, example 5',
         '[ [ e.sal | e ← emp, e.dno = d.no ]^sum | d ← filter^bag (λb. b.budg < 10000) dept ]^bag',
         [DEPT, EMP],
         'bag{ sum{ e.sal | e <- Emp, e.dno = d.no } | d <- bag{ b | b <- Dept, b.budg < 10000 } }',
         '''join 0 (< (. 1 $0) 10000)
            outer 1 (= (. 0 $1) (. 0 $0))
            nest 1 sum (. 1 $1) true
            reduce bag $1 true''',
         [2, 0, 300], plain=low_budget),
    Case('003-fig.7-exists', 'figure 7', 'exists(e) = [ True | x ← e ]^exists', [XB],
         'some{ true | x <- Xb }',
         '''join 0 true
            reduce some true true''',
         [1], plain=lambda: bool(XB.rows)),
    Case('003-fig.7-exists-none', 'figure 7', 'the same over nothing', [NOTHING],
         'some{ true | x <- Nothing }',
         '''join 0 true
            reduce some true true''',
         [0], plain=lambda: bool(NOTHING.rows)),
    Case('003-fig.7-listtoset', 'figure 7; 000 §3; 004 §2.3', 'listtoset(e) = [ x | x ← e ]^set', [XS],
         'set{ x.n | x <- Xs }',
         '''join 0 true
            reduce set (. 0 $0) true''',
         [3, 1, 2, 3], G=5, plain=lambda: setof(x.n for x in XS)),
    Case('003-3.1-rule-9', '§3.1', "[ f x x' | x ← xs, x' ← [ y | y ← ys, p y ]^list, q x x' ]^set",
         [XS, YS],
         'set{ (x.n, z) | x <- Xs, z <- list{ y.n | y <- Ys, y.n > 1 }, x.n < z }',
         '''join 0 true
            join 1 (and (< 1 (. 0 $1)) (< (. 0 $0) (. 0 $1)))
            reduce set (rec (. 0 $0) (. 0 $1)) true''',
         [3, 1, 2, 1, 3, 2, 3],
         plain=lambda: setof((x.n, y.n) for x in XS for y in YS if y.n > 1 and x.n < y.n)),
    Case('003-3.1-rule-10', '§3.1', '[ f x | x ← xs, [ g x = h y | y ← ys, p y ]^exists ]^set', [XN, YN],
         'set{ x.a | x <- Xn, some{ x.b = y.a | y <- Yn, y.b > 0 } }',
         '''join 0 true
            join 1 (and (< 0 (. 1 $1)) (= (. 1 $0) (. 0 $1)))
            reduce set (. 0 $0) true''',
         [2, 1, 3], plain=lambda: setof(x.a for x in XN if x.b in [y.a for y in YN if y.b > 0])),
    Case('003-fig.9-map', 'figure 9', 'map f s = [ f x | x ← s ]', [XS],
         'list{ x.n * x.n | x <- Xs }',
         '''join 0 true
            reduce list (* (. 0 $0) (. 0 $0)) true''',
         [4, 9, 1, 4, 9], plain=lambda: listof(x.n * x.n for x in XS)),
    Case('003-fig.9-cross', 'figure 9', 'cross s t = [ (x, y) | x ← s, y ← t ]', [TS, YS],
         'list{ (x.n, y.n) | x <- Ts, y <- Ys }',
         '''join 0 true
            join 1 true
            reduce list (rec (. 0 $0) (. 0 $1)) true''',
         [6, 2, 1, 2, 2, 2, 3, 5, 1, 5, 2, 5, 3],
         plain=lambda: listof((x.n, y.n) for x in TS for y in YS)),
    Case('003-fig.9-join', 'figure 9', 'join p f s t = [ f x y | x ← s, y ← t, p x y ]', [XS, YS],
         'list{ x.n + y.n | x <- Xs, y <- Ys, x.n < y.n }',
         '''join 0 true
            join 1 (< (. 0 $0) (. 0 $1))
            reduce list (+ (. 0 $0) (. 0 $1)) true''',
         [3, 3, 4, 5], plain=lambda: listof(x.n + y.n for x in XS for y in YS if x.n < y.n)),
    Case('003-fig.9-semijoin', 'figure 9', 'semijoin p s t = [ x | x ← s, [ p x y | y ← t ]^exists ]',
         [XS, TS],
         'list{ x | x <- Xs, some{ x.n < y.n | y <- Ts } }',
         '''join 0 true
            outer 1 true
            nest 1 some (< (. 0 $0) (. 0 $1)) true
            reduce list $0 $1''',
         [4, 3, 1, 2, 3], plain=lambda: listof(x for x in XS if any(x.n < y.n for y in TS))),
    Case('003-fig.9-antijoin', 'figure 9', 'antijoin p s t = [ x | x ← s, [ ¬p x y | y ← t ]^all ]',
         [XS, TS],
         'list{ x | x <- Xs, all{ not x.n = y.n | y <- Ts } }',
         '''join 0 true
            outer 1 true
            nest 1 all (not (= (. 0 $0) (. 0 $1))) true
            reduce list $0 $1''',
         [3, 3, 1, 3], plain=lambda: listof(x for x in XS if all(x.n != y.n for y in TS))),
    Case('003-fig.9-nestjoin-list', 'figure 9', 'nestjoin p f s t = [ [ f x y | y ← t, p x y ] | x ← s ]',
         [XS, YS],
         'list{ list{ y.n | y <- Ys, x.n < y.n } | x <- Xs }',
         '''join 0 true
            outer 1 (< (. 0 $0) (. 0 $1))
            nest 1 list (. 0 $1) true
            reduce list $1 true''',
         [4, 0, 2, 2, 3, 1, 3, 0],
         plain=lambda: listof(listof(y.n for y in YS if x.n < y.n) for x in XS)),
    Case('003-fig.9-nestjoin-bag', 'figure 9', 'the same, both types being bag', [XS, YS],
         'bag{ bag{ y.n | y <- Ys, x.n < y.n } | x <- Xs }',
         '''join 0 true
            outer 1 (< (. 0 $0) (. 0 $1))
            nest 1 bag (. 0 $1) true
            reduce bag $1 true''',
         [4, 0, 0, 1, 3, 2, 2, 3],
         plain=lambda: bagof(bagof(y.n for y in YS if x.n < y.n) for x in XS)),
    Case('003-fig.9-agg', 'figure 9', 'agg f s = [ f x | x ← s ]^agg, agg being max', [XS],
         'max{ x.n | x <- Xs }',
         '''join 0 true
            reduce max (. 0 $0) true''',
         [3], plain=lambda: most(x.n for x in XS)),
    Case('003-3.2-example-2', '§3.2, example 2, figure 12',
         '[ x | x ← xs, [ [ q x z && p y z | z ← zs ]^exists | y ← ys ]^exists ]^set', [X2, Y2, Z2],
         'set{ x | x <- X2, some{ some{ x.n < z.n and y.n = z.n | z <- Z2 } | y <- Y2 } }',
         '''join 0 true
            join 1 true
            join 2 (and (< (. 0 $0) (. 0 $2)) (= (. 0 $1) (. 0 $2)))
            reduce set $0 true''',
         [1, 1],
         plain=lambda: setof(x for x in X2 if any(x.n < z.n and y.n == z.n for y in Y2 for z in Z2))),
    Case('003-fig.13-example-2', '§3.2, example 2, figure 13',
         '[ x | x ← xs, [ q x z | z ← zs, [ p y z | y ← ys ]^exists ]^exists ]^set', [X2, Y2, Z2],
         'set{ x | x <- X2, some{ x.n < z.n | z <- Z2, some{ y.n = z.n | y <- Y2 } } }',
         '''join 0 true
            join 2 (< (. 0 $0) (. 0 $1))
            join 1 (= (. 0 $2) (. 0 $1))
            reduce set $0 true''',
         [1, 1],
         plain=lambda: setof(x for x in X2
                             if any(x.n < z.n for z in Z2 if any(y.n == z.n for y in Y2)))),
    Case('003-3.2-example-3-closed', '§3.2, example 3',
         '[ x | x ← xs, [ q x y | y ← ys, p y ]^all ]^bag', [XB, YB],
         'bag{ x | x <- Xb, all{ x.n != y.n | y <- bag{ z | z <- Yb, z.n > 1 } } }',
         '''join 0 true
            outer 1 (< 1 (. 0 $1))
            nest 1 all (not (= (. 0 $0) (. 0 $1))) true
            reduce bag $0 $1''',
         [2, 1, 3], plain=lambda: bagof(x for x in XB if all(x.n != y.n for y in YB if y.n > 1))),
    Case('003-3.2-example-3-open', '§3.2, example 3',
         '[ x | x ← xs, [ q x y | y ← ys, p x y ]^all ]^bag', [XB, YB],
         'bag{ x | x <- Xb, all{ x.n < y.n + y.n | y <- bag{ z | z <- Yb, z.n < x.n } } }',
         '''join 0 true
            outer 1 (< (. 0 $1) (. 0 $0))
            nest 1 all (< (. 0 $0) (+ (. 0 $1) (. 0 $1))) true
            reduce bag $0 $1''',
         [1, 1], plain=lambda: bagof(x for x in XB if all(x.n < y.n + y.n for y in YB if y.n < x.n))),
    Case('003-3.2-example-3-inscope', '§3.2, example 3, figure 14',
         '[ x | x ← xs, [ q x y || ¬p x y | y ← ys ]^all ]^bag', [XB, YB],
         'bag{ x | x <- Xb, all{ x.n < y.n + y.n or not y.n < x.n | y <- Yb } }',
         '''join 0 true
            outer 1 true
            nest 1 all (or (< (. 0 $0) (+ (. 0 $1) (. 0 $1))) (not (< (. 0 $1) (. 0 $0)))) true
            reduce bag $0 $1''',
         [1, 1],
         plain=lambda: bagof(x for x in XB if all(x.n < y.n + y.n or not y.n < x.n for y in YB))),
    Case('003-4.1-example-4', '§4.1', 'map f (filter p s)', [XB],
         'bag{ y.n + 1 | y <- bag{ x | x <- Xb, x.n > 1 } }',
         '''join 0 (< 1 (. 0 $0))
            reduce bag (+ (. 0 $0) 1) true''',
         [2, 3, 4], plain=lambda: bagof(x.n + 1 for x in XB if x.n > 1)),
]

LEFT_OUT = [
    ('§2, figure 4', 'the aggregates min and prod', '01 has no prod; document 02 adds min (E1).'),
    ('§2', 'max over nothing, −∞ there', 'Where a source differs 01 rules: max over nothing is 0.'),
    ('§2.1, §4', 'foldr and build themselves', 'They take functions, which are no values of 01; '
     'what they compute is in the comprehensions above.'),
    ('§3, rules 7 and 8', 'generators over the empty and the written-out collection',
     '01 has no written-out collection.'),
]
