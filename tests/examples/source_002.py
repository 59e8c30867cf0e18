"""Source 002: Cluet and Moerkotte, Nested Queries in Object Bases."""
from case import Case
from notation import Table, bagof, most, setof
from tables_000 import R, S_CD

TITLE = 'Source 002: Nested Queries in Object Bases'

# Relations of the operators' definitions.
T = Table('T', 'set', 'a b', (1, 1), (1, 2))
E1 = Table('E1', 'set', 'a', (1,), (3,))
E2 = Table('E2', 'bag', 'a', (2,), (3,), (4,))

# The schema that the queries imply. Paris is 75, Karlsruhe 76; two employees are named 51.
EMPLOYEE = Table('Employee', 'bag', 'id name dept city total speciality',
                 (1, 51, 1, 75, 30000, 4), (2, 52, 1, 76, 15000, 2),
                 (3, 53, 2, 75, 30000, 9), (4, 51, 2, 76, 5000, 9))
DEPARTMENT = Table('Department', 'bag', 'id floor', (1, 4), (2, 5), (3, 6))
CHILD = Table('Child', 'bag', 'parent name age', (1, 51, 17), (1, 54, 20), (2, 55, 3), (4, 56, 18))
ITEM = Table('Item', 'bag', 'id price degree', (1, 25000, 5), (2, 30000, 3), (3, 100, 10))
SOLD = Table('Sold', 'bag', 'emp item', (1, 1), (1, 2), (1, 3), (2, 1), (3, 3))
SALE = Table('Sale', 'bag', 'emp customer', (1, 1), (1, 2), (3, 2))
CUSTOMER = Table('Customer', 'bag', 'id name city', (1, 61, 76), (2, 62, 75))
GOODS = Table('Goods', 'bag', 'id value made', (1, 150, 21), (2, 90, 22), (3, 200, 21))
DEPT = Table('Dept', 'bag', 'id store', (21, 1), (22, 2))
R4 = Table('R4', 'bag', 'a b c d', (1, 1, 5, 8), (2, 0, 5, 9), (3, 0, 6, 8))
S3 = Table('S3', 'bag', 'e f g', (5, 1, 7), (5, 2, 7), (6, 0, 4))
T2 = Table('T2', 'bag', 'h i', (7, 8), (7, 9), (7, 9))


def sold(emp):
    return [s.item for s in SOLD if s.emp == emp]


def children(parent):
    return [c for c in CHILD if c.parent == parent]


def special(count_t):
    """Section 5.4, the count of t being given."""
    return bagof(r.a for r in R4 if r.b == sum(1 for s in S3 if r.c == s.e and s.f == count_t(r, s)))


OPERATORS = [
    Case('002-2.1-semi-join', '§2.1, Eqv. 35', 'e1 ⋉ e2 = { y | y ∈ e1, ∃x ∈ e2, p(y, x) }', [E1, E2],
         'set{ y | y <- E1, some{ y.a = x.a | x <- E2 } }',
         '''join 0 true
            join 1 (= (. 0 $0) (. 0 $1))
            reduce set $0 true''',
         [1, 3], plain=lambda: setof(y for y in E1 if any(y.a == x.a for x in E2))),
    Case('002-2.1-anti-join', '§2.1, Eqv. 36', 'e1 ▷ e2 = { y | y ∈ e1, ¬∃x ∈ e2, p(y, x) }', [E1, E2],
         'set{ y | y <- E1, not some{ y.a = x.a | x <- E2 } }',
         '''join 0 true
            outer 1 true
            nest 1 some (= (. 0 $0) (. 0 $1)) true
            reduce set $0 (not $1)''',
         [1, 1], plain=lambda: setof(y for y in E1 if not any(y.a == x.a for x in E2))),
    Case('002-2.1-d-join', '§2.1, Eqv. 45', 'e1⟨e2⟩ = { y ∘ x | y ∈ e1, x ∈ e2(y) }', [E1, E2],
         'set{ (y, x) | y <- E1, x <- bag{ z | z <- E2, y.a < z.a } }',
         '''join 0 true
            join 1 (< (. 0 $0) (. 0 $1))
            reduce set (rec $0 $1) true''',
         [4, 1, 2, 1, 3, 1, 4, 3, 4], plain=lambda: setof((y, x) for y in E1 for x in E2 if y.a < x.a)),
    Case('002-2.1-binary-grouping', '§2.1, Eqv. 39',
         'e1 Γ[g; A1 θ A2; f] e2 = { y ∘ [g: f({ x | x ∈ e2, y.A1 θ x.A2 })] | y ∈ e1 }', [E1, E2],
         'set{ (y.a, sum{ 1 | x <- E2, y.a < x.a }) | y <- E1 }',
         '''join 0 true
            outer 1 (< (. 0 $0) (. 0 $1))
            nest 1 sum 1 true
            reduce set (rec (. 0 $0) $1) true''',
         [2, 1, 3, 3, 1], plain=lambda: setof((y.a, sum(y.a < x.a for x in E2)) for y in E1)),
    Case('002-2.2-unary-grouping', '§2.2.1', 'Γ[g; a]({[a:1, b:1], [a:1, b:2]})', [T],
         'set{ (y.a, set{ x | x <- T, x.a = y.a }) | y <- T }',
         '''join 0 true
            outer 0 (= (. 0 $1) (. 0 $0))
            nest 1 set $1 true
            reduce set (rec (. 0 $0) $1) true''',
         [1, 1, 2, 1, 1, 1, 2], G=13,
         plain=lambda: setof((y.a, setof(x for x in T if x.a == y.a)) for y in T)),
    Case('002-2.1-max', '§2.1, Eqv. 34',
         'Max[g; m; aθ; f](e) = [m: max({ x.a | x ∈ e }), g: f({ x | x ∈ e, x.a θ m })]', [EMPLOYEE],
         '''bag{ (m, set{ x.name | x <- Employee, x.total = m })
                 | let m = max{ y.total | y <- Employee } }''',
         '''join unit true
            outer 0 true
            nest 1 max (. 4 $1) true
            outer 0 true
            outer 0 true
            nest 3 max (. 4 $3) true
            nest 2 set (. 1 $2) (= (. 4 $2) $3)
            reduce bag (rec $1 $2) true''',
         [1, 30000, 2, 51, 53],
         plain=lambda: [(m, setof(x.name for x in EMPLOYEE if x.total == m))
                        for m in [most(y.total for y in EMPLOYEE)]],
         says='A question is a comprehension, so the one tuple stands in a bag without generators.'),
]

TYPES = [
    Case('002-4.1.1-best-seller', '§4.1.1, type A',
         'select x1 from x1 in Employee where x1.TotSales = max(select x2.TotSales from x2 in Employee)',
         [EMPLOYEE],
         'bag{ x | x <- Employee, x.total = max{ y.total | y <- Employee } }',
         '''join 0 true
            outer 0 true
            nest 1 max (. 4 $1) true
            reduce bag $0 (= (. 4 $0) $1)''',
         [2, 1, 51, 1, 75, 30000, 4, 3, 53, 2, 75, 30000, 9],
         plain=lambda: bagof(x for x in EMPLOYEE if x.total == max(y.total for y in EMPLOYEE))),
    Case('002-4.1.2-expensive', '§4.1.2, type N',
         'select x from x in Employee where x.SoldItems ⊇ select i from i in Item where i.price > 20000',
         [EMPLOYEE, SOLD, ITEM],
         '''bag{ x | x <- Employee,
                 all{ some{ s.item = i.id | s <- Sold, s.emp = x.id } | i <- Item, i.price > 20000 } }''',
         '''join 0 true
            outer 2 (< 20000 (. 1 $1))
            outer 1 (= (. 0 $2) (. 0 $0))
            nest 2 some (= (. 1 $2) (. 0 $1)) true
            nest 1 all $2 true
            reduce bag $0 $1''',
         [1, 1, 51, 1, 75, 30000, 4],
         plain=lambda: bagof(x for x in EMPLOYEE
                             if {i.id for i in ITEM if i.price > 20000} <= set(sold(x.id))),
         says='One collection holds another where each of its elements is found there.'),
    Case('002-4.1.3-special', '§4.1.3, type J',
         '''select x from x in Employee
            where x.SoldItems ⊇ select i from i in Item where i.hTD > x.speciality''',
         [EMPLOYEE, SOLD, ITEM],
         '''bag{ x | x <- Employee, all{ some{ s.item = i.id | s <- Sold, s.emp = x.id }
                                         | i <- Item, i.degree > x.speciality } }''',
         '''join 0 true
            outer 2 (< (. 5 $0) (. 2 $1))
            outer 1 (= (. 0 $2) (. 0 $0))
            nest 2 some (= (. 1 $2) (. 0 $1)) true
            nest 1 all $2 true
            reduce bag $0 $1''',
         [2, 1, 51, 1, 75, 30000, 4, 3, 53, 2, 75, 30000, 9],
         plain=lambda: bagof(x for x in EMPLOYEE
                             if {i.id for i in ITEM if i.degree > x.speciality} <= set(sold(x.id)))),
    Case('002-4.1.3-not-in', '§4.1.3, Eqv. 38', 'σ[A1 ∉ χ[A2](σ[p](e2))] e1', [R, S_CD],
         'set{ r | r <- R, not some{ x = r.B | x <- set{ s.D | s <- S_CD, r.C = s.C } } }',
         '''join 0 true
            outer 1 (= (. 2 $0) (. 0 $1))
            nest 1 some (= (. 1 $1) (. 1 $0)) true
            reduce set $0 (not $1)''',
         [2, 2, 6, 7, 3, 5, 8],
         plain=lambda: setof(r for r in R if r.B not in [s.D for s in S_CD if r.C == s.C])),
    Case('002-4.2.1-count', '§4.2.1, type JA',
         '''select tuple(dept: d, emps: count(select e from e in Employee where e.dept=d))
            from d in Department''', [DEPARTMENT, EMPLOYEE],
         'bag{ (d, sum{ 1 | e <- Employee, e.dept = d.id }) | d <- Department }',
         '''join 0 true
            outer 1 (= (. 2 $1) (. 0 $0))
            nest 1 sum 1 true
            reduce bag (rec $0 $1) true''',
         [3, 1, 4, 2, 2, 5, 2, 3, 6, 0],
         plain=lambda: bagof((d, sum(e.dept == d.id for e in EMPLOYEE)) for d in DEPARTMENT)),
    Case('002-4.2.1-flatten', '§4.2.1',
         '''flatten(select (select tuple(name: c.name, age: c.age) from c in e.children
            where c.age < 18) from e in Employee)''', [EMPLOYEE, CHILD],
         '''set{ t | g <- bag{ bag{ (c.name, c.age) | c <- bag{ k | k <- Child, k.parent = e.id }, c.age < 18 }
                               | e <- Employee },
                     t <- g }''',
         '''join 0 true
            join 1 (and (= (. 0 $1) (. 0 $0)) (< (. 2 $1) 18))
            reduce set (rec (. 1 $1) (. 2 $1)) true''',
         [2, 51, 17, 55, 3],
         plain=lambda: setof((c.name, c.age) for e in EMPLOYEE for c in children(e.id) if c.age < 18)),
    Case('002-4.3.1-same-name', '§4.3.1',
         'select x from x in Employee where x.name in select c.name from c in x.children',
         [EMPLOYEE, CHILD],
         '''bag{ x | x <- Employee,
                 some{ x.name = n | n <- bag{ c.name | c <- bag{ k | k <- Child, k.parent = x.id } } } }''',
         '''join 0 true
            outer 1 (= (. 0 $1) (. 0 $0))
            nest 1 some (= (. 1 $0) (. 1 $1)) true
            reduce bag $0 $1''',
         [1, 1, 51, 1, 75, 30000, 4],
         plain=lambda: bagof(x for x in EMPLOYEE if x.name in [c.name for c in children(x.id)])),
    Case('002-4.3.1-karlsruhe', '§4.3.1',
         '''select tuple(e: x.name, c: select s.customer.name from s in x.sales
            where s.customer.city = "Karlsruhe") from x in Employee''', [EMPLOYEE, SALE, CUSTOMER],
         '''bag{ (x.name, bag{ u.name | s <- bag{ k | k <- Sale, k.emp = x.id },
                                       u <- Customer, u.id = s.customer, u.city = 76 })
                 | x <- Employee }''',
         '''join 0 true
            outer 1 (= (. 0 $1) (. 0 $0))
            outer 2 (and (= (. 0 $2) (. 1 $1)) (= (. 2 $2) 76))
            nest 1 bag (. 1 $2) true
            reduce bag (rec (. 1 $0) $1) true''',
         [4, 51, 0, 51, 1, 61, 52, 0, 53, 0],
         plain=lambda: bagof((x.name, bagof(u.name for s in SALE if s.emp == x.id for u in CUSTOMER
                                            if u.id == s.customer and u.city == 76))
                             for x in EMPLOYEE),
         says='Two employees named 51: the empty bag is the lesser and stands first.'),
]

QUANTIFIERS = [
    Case('002-5.2.1-exists', '§5.2.1',
         '''exists x in (select emp from emp in Employee where emp.TotSales > 20000)
            where x.address.city="Paris"''', [EMPLOYEE],
         'some{ x.city = 75 | x <- bag{ e | e <- Employee, e.total > 20000 } }',
         '''join 0 (< 20000 (. 4 $0))
            reduce some (= (. 3 $0) 75) true''',
         [1], plain=lambda: any(x.city == 75 for x in EMPLOYEE if x.total > 20000)),
    Case('002-5.2.1-exists-pushed', '§5.2.1, Eqv. 46', '∃[p1](σ[p2](e)) ≡ ∃[p1 ∧ p2] e', [EMPLOYEE],
         'some{ x.city = 75 and x.total > 20000 | x <- Employee }',
         '''join 0 true
            reduce some (and (= (. 3 $0) 75) (< 20000 (. 4 $0))) true''',
         [1], plain=lambda: any(x.city == 75 and x.total > 20000 for x in EMPLOYEE)),
    Case('002-5.2.1-for-all', '§5.2.1, Eqv. 47', '∀[p1](σ[p2](e))', [EMPLOYEE],
         'all{ x.city = 75 | x <- bag{ e | e <- Employee, e.total > 20000 } }',
         '''join 0 (< 20000 (. 4 $0))
            reduce all (= (. 3 $0) 75) true''',
         [1], plain=lambda: all(x.city == 75 for x in EMPLOYEE if x.total > 20000)),
    Case('002-5.2.1-for-all-pushed', '§5.2.1, Eqv. 47', '≡ ∀[p1 ∨ ¬p2] e', [EMPLOYEE],
         'all{ x.city = 75 or not x.total > 20000 | x <- Employee }',
         '''join 0 true
            reduce all (or (= (. 3 $0) 75) (not (< 20000 (. 4 $0)))) true''',
         [1], plain=lambda: all(x.city == 75 or not x.total > 20000 for x in EMPLOYEE)),
    Case('002-5.2.3-namesakes', '§5.2.3',
         '''select x1 from x1 in Employee
            where exists x2 in Employee where x2.name = x1.name and x1 <> x2''', [EMPLOYEE],
         '''bag{ x | x <- Employee, some{ y.name = x.name and x.id != y.id | y <- Employee } }''',
         '''join 0 true
            outer 0 true
            nest 1 some (and (= (. 1 $1) (. 1 $0)) (not (= (. 0 $0) (. 0 $1)))) true
            reduce bag $0 $1''',
         [2, 1, 51, 1, 75, 30000, 4, 4, 51, 2, 76, 5000, 9],
         plain=lambda: bagof(x for x in EMPLOYEE
                             if any(y.name == x.name and x.id != y.id for y in EMPLOYEE)),
         says='01 has no identity; the key says which employee is meant.'),
    Case('002-5.4-non-neighbour', '§5.4',
         '''select r.a from r in R where r.b θ1 count(select s from s in S where r.c = s.e and
            s.f θ3 count(select t from t in T where s.g = t.h and r.d = t.i)), both θ being =''',
         [R4, S3, T2],
         '''bag{ r.a | r <- R4, r.b = sum{ 1 | s <- S3, r.c = s.e,
                 s.f = sum{ 1 | t <- T2, s.g = t.h, r.d = t.i } } }''',
         '''join 0 true
            outer 1 (= (. 2 $0) (. 0 $1))
            outer 2 (and (= (. 2 $1) (. 0 $2)) (= (. 3 $0) (. 1 $2)))
            nest 2 sum 1 true
            nest 1 sum 1 (= (. 1 $1) $2)
            reduce bag (. 0 $0) (= (. 1 $0) $1)''',
         [1, 1], plain=lambda: special(lambda r, s: sum(s.g == t.h and r.d == t.i for t in T2))),
    Case('002-5.4-no-anchor', '§5.4', 'the same without s.g = t.h', [R4, S3, T2],
         'bag{ r.a | r <- R4, r.b = sum{ 1 | s <- S3, r.c = s.e, s.f = sum{ 1 | t <- T2, r.d = t.i } } }',
         '''join 0 true
            outer 1 (= (. 2 $0) (. 0 $1))
            outer 2 (= (. 3 $0) (. 1 $2))
            nest 2 sum 1 true
            nest 1 sum 1 (= (. 1 $1) $2)
            reduce bag (. 0 $0) (= (. 1 $0) $1)''',
         [2, 1, 3], plain=lambda: special(lambda r, s: sum(r.d == t.i for t in T2))),
    Case('002-6-outer-restriction', '§6',
         '''select i from i in Item where i in (select d.store from d in Dept
            where i.producedBy = d and i.value > 100)''', [GOODS, DEPT],
         '''bag{ i | i <- Goods,
                 some{ x = i.id | x <- bag{ d.store | d <- Dept, i.made = d.id, i.value > 100 } } }''',
         '''join 0 true
            outer 1 (and (= (. 2 $0) (. 0 $1)) (< 100 (. 1 $0)))
            nest 1 some (= (. 1 $1) (. 0 $0)) true
            reduce bag $0 $1''',
         [1, 1, 150, 21],
         plain=lambda: bagof(i for i in GOODS if i.id in [d.store for d in DEPT
                                                          if i.made == d.id and i.value > 100])),
]

CASES = OPERATORS + TYPES + QUANTIFIERS

LEFT_OUT = [
    ('§2.1', 'union, intersection and difference of two sets as operators',
     '01 has no union or difference of two collections as a term; intersection is 000-2.3-intersect.'),
    ('§2.1', 'left outer join with a default value',
     'Its other attributes are null, and nulls are no values of 01.'),
    ('§2.1', 'Min', 'Document 02 adds min (E1); its case would be that of Max, mirrored.'),
    ('§3', 'the query with best_sales',
     'It calls a method, and its listing is lost in the text that we have.'),
    ('§6', 'the if operator (55)', 'A choice between a collection and none is a condition in 01; '
     'the query above shows it.'),
]
