"""Source 000: Fegaras and Maier, Optimizing Object Queries Using an Effective Calculus."""
from benchmark_000 import BENCHMARK
from case import Case
from notation import bagof, most, setof
from tables_000 import (
    A_XN, B, B12, B121, B343, B_YM, CHILDREN, COURSES, DEPARTMENTS, DEPTS, EMPLOYEES, G, INSTRUCTORS, K,
    L, L12, M, MANAGERS, OFFERED, P, PREREQUISITES, R, S, S123, S14, S23, S_CD, STUDENTS, TEACHING,
    TRANSCRIPT, V, W, X, Y, Z, children, instructors, teaches)

TITLE = 'Source 000: Optimizing Object Queries Using an Effective Calculus'

SMALL = [
    Case('000-2-join', '§2; 004 §2', '∪{ (a, b) | a ← [1, 2, 3], b ← {{4, 5}} }', [L, B],
         'set{ (a.n, b.n) | a <- L, b <- B }',
         '''join 0 true
            join 1 true
            reduce set (rec (. 0 $0) (. 0 $1)) true''',
         [6, 1, 4, 1, 5, 2, 4, 2, 5, 3, 4, 3, 5],
         plain=lambda: setof((a.n, b.n) for a in L for b in B)),
    Case('000-2-sum', '§2; 004 §2', '+{ a | a ← [1, 2, 3], a ≥ 2 }', [L],
         'sum{ a.n | a <- L, a.n >= 2 }',
         '''join 0 (not (< (. 0 $0) 2))
            reduce sum (. 0 $0) true''',
         [5], plain=lambda: sum(a.n for a in L if a.n >= 2)),
    Case('000-2.2-image', '§2.2; 002 §2.1, χ; 004 §2.1', 'hom[++, ∪](λx. {x + 1}) A', [L],
         'set{ x.n + 1 | x <- L }',
         '''join 0 true
            reduce set (+ (. 0 $0) 1) true''',
         [3, 2, 3, 4], plain=lambda: setof(x.n + 1 for x in L)),
    Case('000-2.2-bag-cardinality', '§2.2; 004 §2.1', 'hom[⊎, +](λx. 1) A', [B],
         'sum{ 1 | x <- B }',
         '''join 0 true
            reduce sum 1 true''',
         [2], plain=lambda: sum(1 for x in B)),
    Case('000-2.2-set-cardinality', '§2.2; 004 §2.1', 'hom[∪, +](λx. 1) A, not well-formed', [S],
         'sum{ 1 | x <- S }', refused=26),
    Case('000-2.2-product', '§2.2; 003 fig. 9; 004 §2.1', 'x × y = hom[∪, ∪](λa. hom[∪, ∪](λb. {(a, b)}) y) x',
         [S, S23],
         'set{ (a.n, b.n) | a <- S, b <- S23 }',
         '''join 0 true
            join 1 true
            reduce set (rec (. 0 $0) (. 0 $1)) true''',
         [4, 1, 2, 1, 3, 2, 2, 2, 3], plain=lambda: setof((a.n, b.n) for a in S for b in S23)),
    Case('000-2.3-set-to-list', '§2.3; 004 §2.1; 003 §2.2', '++{ x | x ← {1, 2} }, not well-formed',
         [S],
         'list{ x.n | x <- S }', refused=26),
    Case('000-2.3-bag-sum', '§2.3; 004 §2.1', '+{ x | x ← {{1, 2}} } = 3', [B12],
         'sum{ x.n | x <- B12 }',
         '''join 0 true
            reduce sum (. 0 $0) true''',
         [3], plain=lambda: sum(x.n for x in B12)),
    Case('000-2.3-relational-join', '§2.3; 004 §2.1',
         '∪{ ⟨C=a.C, D=b.D⟩ | a ← x, b ← y, a.C=b.C, a.D > 10 }', [X, Y],
         'set{ (a.C, b.D) | a <- X, b <- Y, a.C = b.C, a.D > 10 }',
         '''join 0 (< 10 (. 1 $0))
            join 1 (= (. 0 $0) (. 0 $1))
            reduce set (rec (. 0 $0) (. 1 $1)) true''',
         [3, 1, 5, 3, 7, 3, 8],
         plain=lambda: setof((a.C, b.D) for a in X for b in Y if a.C == b.C and a.D > 10)),
    Case('000-2.3-list-and-bag', '§2.3; 004 §2.1', '∪{ (x, y) | x ← [1, 2], y ← {{3, 4, 3}} }',
         [L12, B343],
         'set{ (x.n, y.n) | x <- L12, y <- B343 }',
         '''join 0 true
            join 1 true
            reduce set (rec (. 0 $0) (. 0 $1)) true''',
         [4, 1, 3, 1, 4, 2, 3, 2, 4], G=13,
         plain=lambda: setof((x.n, y.n) for x in L12 for y in B343)),
    Case('000-2.3-nest', '§2.3; 004 §2.1',
         'nest(k) x = ∪{ ⟨KEY=k(e), INFO=∪{ a | a ← x, k(e)=k(a) }⟩ | e ← x }', [K],
         'set{ (e.k, set{ a | a <- K, e.k = a.k }) | e <- K }',
         '''join 0 true
            outer 0 (= (. 0 $0) (. 0 $1))
            nest 1 set $1 true
            reduce set (rec (. 0 $0) $1) true''',
         [2, 1, 2, 1, 5, 1, 7, 2, 1, 2, 6], G=17,
         plain=lambda: setof((e.k, setof(a for a in K if e.k == a.k)) for e in K)),
    Case('000-2.3-unnest', '§2.3; 002 §2.1, μ; 004 §2.1',
         'unnest(x) = ∪{ e | s ← x, e ← s.INFO }, of nest(k) x', [K],
         'set{ f | s <- set{ (e.k, set{ a | a <- K, e.k = a.k }) | e <- K }, f <- s.1 }',
         '''join 0 true
            join 0 (= (. 0 $0) (. 0 $1))
            reduce set $1 true''',
         [3, 1, 5, 1, 7, 2, 6], G=11, plain=lambda: setof(K)),
    Case('000-2.3-filter', '§2.3; 002 §2.1, σ; 003 fig. 9; 004 §2.1', 'filter(p) x = ∪{ e | e ← x, p(e) }', [K],
         'set{ e | e <- K, e.v > 5 }',
         '''join 0 (< 5 (. 1 $0))
            reduce set $0 true''',
         [2, 1, 7, 2, 6], plain=lambda: setof(e for e in K if e.v > 5)),
    Case('000-2.3-flatten', '§2.3, §3; 002 §2.1; 003 fig. 7; 004 §2.1, §2.3',
         'flatten(x) = ∪{ e | s ← x, e ← s }', [G, M],
         'set{ e | s <- set{ set{ m.n | m <- M, m.g = g.g } | g <- G }, e <- s }',
         '''join 0 true
            join 1 (= (. 0 $1) (. 0 $0))
            reduce set (. 1 $1) true''',
         [2, 4, 5], G=4, plain=lambda: setof(m.n for g in G for m in M if m.g == g.g)),
    Case('000-2.3-intersect', '§2.3, §3; 003 fig. 7; 004 §2.1, §2.3', 'x ∩ y = ∪{ e | e ← x, e ∈ y }',
         [S, S23],
         'set{ e.n | e <- S, some{ e.n = f.n | f <- S23 } }',
         '''join 0 true
            join 1 (= (. 0 $0) (. 0 $1))
            reduce set (. 0 $0) true''',
         [1, 2], plain=lambda: setof(e.n for e in S if e.n in {f.n for f in S23})),
    Case('000-2.3-length', '§2.3, §3; 004 §2.1, §2.3', 'length(x) = +{ 1 | e ← x }', [L],
         'sum{ 1 | e <- L }',
         '''join 0 true
            reduce sum 1 true''',
         [3], plain=lambda: len(L.rows)),
    Case('000-2.3-sum', '§2.3, §3; 004 §2.1, §2.3', 'sum([1, 2, 3]) = +{ e | e ← [1, 2, 3] } = 6', [L],
         'sum{ e.n | e <- L }',
         '''join 0 true
            reduce sum (. 0 $0) true''',
         [6], plain=lambda: sum(e.n for e in L)),
    Case('000-2.3-count', '§2.3; 004 §2.1', 'count({{1, 2, 1}}, 1) = +{ 1 | e ← x, e = a } = 2', [B121],
         'sum{ 1 | e <- B121, e.n = 1 }',
         '''join 0 (= (. 0 $0) 1)
            reduce sum 1 true''',
         [2], plain=lambda: sum(1 for e in B121 if e.n == 1)),
    Case('000-2.3-maximum', '§2.3; 003 fig. 7', 'maximum(x) = max{ e | e ← x }', [S],
         'max{ e.n | e <- S }',
         '''join 0 true
            reduce max (. 0 $0) true''',
         [2], plain=lambda: most(e.n for e in S)),
    Case('000-2.3-exists', '§2.3, §3; 004 §2.1, §2.3', '∃a ∈ x : e = ∨{ e | a ← x }', [S],
         'some{ a.n > 1 | a <- S }',
         '''join 0 true
            reduce some (< 1 (. 0 $0)) true''',
         [1], plain=lambda: any(a.n > 1 for a in S)),
    Case('000-2.3-for-all', '§2.3, §3; 003 fig. 7; 004 §2.1, §2.3', '∀a ∈ x : e = ∧{ e | a ← x }', [S],
         'all{ a.n > 1 | a <- S }',
         '''join 0 true
            reduce all (< 1 (. 0 $0)) true''',
         [0], plain=lambda: all(a.n > 1 for a in S)),
    Case('000-2.3-member', '§2.3, §3; 003 fig. 7; 004 §2.1, §2.3', 'a ∈ x = ∨{ a = e | e ← x }', [S],
         'some{ 2 = e.n | e <- S }',
         '''join 0 true
            reduce some (= 2 (. 0 $0)) true''',
         [1], plain=lambda: 2 in [e.n for e in S]),
    Case('000-2.5-pattern', '§2.5', '∪{ x + y | (x, (y, z)) ← A, z = 3 }', [P],
         'set{ a.0 + a.1.0 | a <- set{ (p.x, (p.y, p.z)) | p <- P }, a.1.1 = 3 }',
         '''join 0 (= (. 2 $0) 3)
            reduce set (+ (. 0 $0) (. 1 $0)) true''',
         [2, 3, 15], plain=lambda: setof(x + y for x, y, z in P if z == 3)),
    Case('000-5.3-sum-all', '§5.3; 004 §4.1', 'sum_all(x) = +{ a | a[i] ← x }', [V],
         'sum{ v.a | v <- V }',
         '''join 0 true
            reduce sum (. 1 $0) true''',
         [46], plain=lambda: sum(v.a for v in V)),
    Case('000-5.3-inner', '§5.3; 004 §4.1', 'inner(x, y) = +{ a × b | a[i] ← x, b[j] ← y, i = j }', [V, W],
         'sum{ v.a * w.a | v <- V, w <- W, v.i = w.i }', refused=28,
         says='A cell times a cell may be 2^62; summed over two generators it passes the bound.'),
]

TRANSLATED = [
    Case('000-2.5-cse5331', '§2.5',
         '''∪{ e.name | el ← ⊎{ d.instructors | d ← Departments, d.name = "CSE" }, e ← el,
            ∨{ c.name = "cse5331" | c ← e.teaches } }''', [DEPARTMENTS, INSTRUCTORS, COURSES],
         '''set{ e.name | el <- bag{ bag{ i | i <- Instructors, i.dept = d.dno }
                                   | d <- Departments, d.name = 10 },
                 e <- el, some{ c.name = 5331 | c <- bag{ k | k <- Courses, k.by = e.ssn } } }''',
         '''join 0 (= (. 1 $0) 10)
            join 1 (= (. 5 $1) (. 0 $0))
            join 2 (and (= (. 3 $2) (. 0 $1)) (= (. 1 $2) 5331))
            reduce set (. 1 $1) true''',
         [1, 101],
         plain=lambda: setof(e.name for d in DEPARTMENTS if d.name == 10 for e in instructors(d.dno)
                             if any(c.name == 5331 for c in teaches(e.ssn)))),
    Case('000-3-cse5331', '§3',
         '''⊎{ ⟨Name: e.name, Address: e.address⟩ | el ← ⊎{ d.instructors | d ← Departments,
            d.name = "CSE" }, e ← el, ∨{ c.name = "cse5331" | c ← e.teaches } }''',
         [DEPARTMENTS, INSTRUCTORS, COURSES],
         '''bag{ (e.name, e.address)
                 | el <- bag{ bag{ i | i <- Instructors, i.dept = d.dno } | d <- Departments, d.name = 10 },
                   e <- el, some{ c.name = 5331 | c <- bag{ k | k <- Courses, k.by = e.ssn } } }''',
         '''join 0 (= (. 1 $0) 10)
            join 1 (= (. 5 $1) (. 0 $0))
            outer 2 (= (. 3 $2) (. 0 $1))
            nest 2 some (= (. 1 $2) 5331) true
            reduce bag (rec (. 1 $1) (. 2 $1)) $2''',
         [1, 101, 1001],
         plain=lambda: bagof((e.name, e.address) for d in DEPARTMENTS if d.name == 10
                             for e in instructors(d.dno)
                             if any(c.name == 5331 for c in teaches(e.ssn)))),
    Case('000-3-more-than-8', '§3', '∪{ e.dept.name | e ← Instructors, +{ 1 | c ← e.teaches } > 8 }',
         [INSTRUCTORS, DEPARTMENTS, TEACHING],
         '''set{ d.name | e <- Instructors, d <- Departments, d.dno = e.dept,
                 sum{ 1 | c <- Teaching, c.ssn = e.ssn } > 8 }''',
         '''join 0 true
            join 1 (= (. 0 $1) (. 5 $0))
            outer 2 (= (. 0 $2) (. 0 $0))
            nest 2 sum 1 true
            reduce set (. 1 $1) (< 8 $2)''',
         [1, 10],
         plain=lambda: setof(d.name for e in INSTRUCTORS for d in DEPARTMENTS if d.dno == e.dept
                             and sum(1 for c in TEACHING if c.ssn == e.ssn) > 8)),
    Case('000-3-prerequisite', '§3',
         '''⊎{ e.name | e ← Instructors,
            ∧{ ∨{ d.name = "cse2320" | d ← c.has_prerequisites } | c ← e.teaches } }''',
         [INSTRUCTORS, COURSES, PREREQUISITES],
         '''bag{ e.name | e <- Instructors,
                 all{ some{ d.name = 2320 | d <- bag{ k | p <- Prerequisites, p.course = c.code,
                                                         k <- Courses, k.code = p.before } }
                      | c <- bag{ t | t <- Courses, t.by = e.ssn } } }''',
         '''join 0 true
            outer 1 (= (. 3 $1) (. 0 $0))
            outer 2 (= (. 0 $2) (. 0 $1))
            outer 1 (= (. 0 $3) (. 1 $2))
            nest 2 some (= (. 1 $3) 2320) true
            nest 1 all $2 true
            reduce bag (. 1 $0) $1''',
         [2, 102, 104],
         plain=lambda: bagof(e.name for e in INSTRUCTORS if all(
             any(d.name == 2320 for p in PREREQUISITES if p.course == c.code
                 for d in COURSES if d.code == p.before) for c in teaches(e.ssn)))),
    Case('000-3-largest-salary', '§3',
         '''⊎{ ⟨dept: e.dept.name, largest: max{ s.salary | s ← Instructors,
            e.dept.name = s.dept.name }⟩ | e ← Instructors }''', [INSTRUCTORS, DEPARTMENTS],
         '''bag{ (d.name, max{ s.salary | s <- Instructors, f <- Departments, f.dno = s.dept,
                                          d.name = f.name })
                 | e <- Instructors, d <- Departments, d.dno = e.dept }''',
         '''join 0 true
            join 1 (= (. 0 $1) (. 5 $0))
            outer 0 true
            outer 1 (and (= (. 0 $3) (. 5 $2)) (= (. 1 $1) (. 1 $3)))
            nest 2 max (. 3 $2) true
            reduce bag (rec (. 1 $1) $2) true''',
         [4, 10, 900, 10, 900, 10, 900, 20, 800],
         plain=lambda: bagof((d.name, most(s.salary for s in INSTRUCTORS for f in DEPARTMENTS
                                           if f.dno == s.dept and d.name == f.name))
                             for e in INSTRUCTORS for d in DEPARTMENTS if d.dno == e.dept)),
    Case('000-3-partition', '§3',
         '''⊎{ ⟨salary: max{ p.e.salary | p ← partition }, dept: dname⟩ | e ← Instructors,
            dname ≡ e.dept.name, teaches ≡ +{ 1 | c ← e.teaches, c.offered_by.name = "CSE" },
            partition ≡ ⊎{ ⟨e: s⟩ | s ← Instructors, s.dept.name = dname,
            +{ 1 | c ← s.teaches, c.offered_by.name = "CSE" } = teaches } }''',
         [INSTRUCTORS, DEPARTMENTS, COURSES],
         '''bag{ (max{ p.0.salary | p <- partition }, dname)
                 | e <- Instructors, d <- Departments, d.dno = e.dept, let dname = d.name,
                   let teaches = sum{ 1 | c <- Courses, c.by = e.ssn,
                                          o <- Departments, o.dno = c.offered, o.name = 10 },
                   let partition = bag{ (s,) | s <- Instructors, f <- Departments, f.dno = s.dept,
                                               f.name = dname,
                                               sum{ 1 | k <- Courses, k.by = s.ssn, q <- Departments,
                                                        q.dno = k.offered, q.name = 10 } = teaches } }''',
         '''join 0 true
            join 1 (= (. 0 $1) (. 5 $0))
            outer 0 true
            outer 1 (and (= (. 0 $3) (. 5 $2)) (= (. 1 $3) (. 1 $1)))
            outer 2 (= (. 3 $4) (. 0 $2))
            outer 1 (and (= (. 0 $5) (. 2 $4)) (= (. 1 $5) 10))
            nest 4 sum 1 true
            outer 2 (= (. 3 $5) (. 0 $0))
            outer 1 (and (= (. 0 $6) (. 2 $5)) (= (. 1 $6) 10))
            nest 5 sum 1 true
            nest 2 max (. 3 $2) (= $4 $5)
            reduce bag (rec $2 (. 1 $1)) true''',
         [4, 600, 10, 700, 10, 800, 20, 900, 10],
         plain=lambda: bagof(
             (most(s.salary for s in instructors(e.dept)
                   if sum(c.offered == 1 for c in teaches(s.ssn))
                   == sum(c.offered == 1 for c in teaches(e.ssn))), d.name)
             for e in INSTRUCTORS for d in DEPARTMENTS if d.dno == e.dept)),
]

NORMALISED = [
    Case('000-4-filters', '§4; 004 §3', '∪{ a | a ← ∪{ a | a ← x, q(a) }, p(a) }', [K],
         'set{ a | a <- set{ b | b <- K, b.k = 1 }, a.v > 5 }',
         '''join 0 (and (= (. 0 $0) 1) (< 5 (. 1 $0)))
            reduce set $0 true''',
         [1, 1, 7], plain=lambda: setof(a for a in K if a.k == 1 and a.v > 5)),
    Case('000-4-in', '§4; 004 §3; 002 Eqv. 37',
         '∪{ r | r ← R, ∨{ x=r.B | x ← ∪{ s.D | s ← S, r.C=s.C } } }', [R, S_CD],
         'set{ r | r <- R, some{ x = r.B | x <- set{ s.D | s <- S_CD, r.C = s.C } } }',
         '''join 0 true
            join 1 (and (= (. 2 $0) (. 0 $1)) (= (. 1 $1) (. 1 $0)))
            reduce set $0 true''',
         [1, 1, 5, 7],
         plain=lambda: setof(r for r in R if r.B in [s.D for s in S_CD if r.C == s.C])),
    Case('000-4-in-unnested', '§4; 004 §3', '∪{ r | r ← R, s ← S, r.C=s.C, s.D=r.B }', [R, S_CD],
         'set{ r | r <- R, s <- S_CD, r.C = s.C, s.D = r.B }',
         '''join 0 true
            join 1 (and (= (. 2 $0) (. 0 $1)) (= (. 1 $1) (. 1 $0)))
            reduce set $0 true''',
         [1, 1, 5, 7],
         plain=lambda: setof(r for r in R for s in S_CD if r.C == s.C and s.D == r.B)),
    Case('000-4-copies', '§4', '∪{ (v, v) | v ← ∪{ E | w ← X } }', [S23, B12],
         'set{ (v, v) | v <- set{ sum{ y.n | y <- B12, y.n < w.n } | w <- S23 } }',
         '''join 0 true
            outer 1 (< (. 0 $1) (. 0 $0))
            nest 1 sum (. 0 $1) true
            outer 1 (< (. 0 $2) (. 0 $0))
            nest 2 sum (. 0 $2) true
            reduce set (rec $1 $2) true''',
         [2, 1, 1, 3, 3],
         plain=lambda: setof((sum(y.n for y in B12 if y.n < w.n),) * 2 for w in S23)),
    Case('000-4-equijoin', '§4; 002 §2.1, ⋈', '∪{ (x, y) | x ← X, y ← Y, x.A = y.B }', [X, Y],
         'set{ (x, y) | x <- X, y <- Y, x.C = y.C }',
         '''join 0 true
            join 1 (= (. 0 $0) (. 0 $1))
            reduce set (rec $0 $1) true''',
         [4, 1, 11, 1, 5, 2, 10, 2, 9, 3, 12, 3, 7, 3, 12, 3, 8],
         plain=lambda: setof((x, y) for x in X for y in Y if x.C == y.C)),
    Case('000-4-limitations', '§4',
         '''∪{ ⟨E=e, M=∪{ c | c ← e.children, ∧{ c.age > d.age | d ← e.manager.children } }⟩
            | e ← Employees, e.salary > max{ m.salary | m ← Managers, e.age > m.age } }''',
         [EMPLOYEES, MANAGERS, CHILDREN],
         '''set{ (e, set{ c | c <- bag{ k | k <- Children, k.parent = e.id },
                             all{ c.age > d.age | d <- bag{ g | g <- Children, g.parent = e.manager } } })
                 | e <- Employees, e.salary > max{ m.salary | m <- Managers, e.age > m.age } }''',
         '''join 0 true
            outer 1 (< (. 1 $1) (. 3 $0))
            nest 1 max (. 2 $1) true
            outer 2 (= (. 0 $2) (. 0 $0))
            outer 2 (= (. 0 $3) (. 5 $0))
            nest 3 all (< (. 2 $3) (. 2 $2)) true
            nest 2 set $2 $3
            reduce set (rec $0 $2) (< $1 (. 4 $0))''',
         [3, 1, 11, 1, 40, 500, 9, 1, 1, 21, 12, 2, 12, 1, 35, 300, 9, 1, 2, 23, 9,
          3, 13, 2, 28, 400, 8, 1, 3, 26, 2],
         plain=lambda: setof(
             (e, setof(c for c in children(e.id) if all(c.age > d.age for d in children(e.manager))))
             for e in EMPLOYEES
             if e.salary > most(m.salary for m in MANAGERS if e.age > m.age))),
]

UNNESTED = [
    Case('000-6.1-children', '§6.1', '∪{ ⟨E=e.name, C=c.name⟩ | e ← Employees, c ← e.children }',
         [EMPLOYEES, CHILDREN],
         'set{ (e.name, c.name) | e <- Employees, c <- bag{ k | k <- Children, k.parent = e.id } }',
         '''join 0 true
            join 1 (= (. 0 $1) (. 0 $0))
            reduce set (rec (. 1 $0) (. 1 $1)) true''',
         [4, 11, 21, 11, 22, 12, 23, 13, 26],
         plain=lambda: setof((e.name, c.name) for e in EMPLOYEES for c in children(e.id))),
    Case('000-7.1-query-a', '§7.1, query A',
         '∪{ ⟨D=d, E=∪{ e | e ← Employees, e.dno = d.dno }⟩ | d ← Departments }', [DEPTS, EMPLOYEES],
         'set{ (d, set{ e | e <- Employees, e.dno = d.dno }) | d <- Depts }',
         '''join 0 true
            outer 1 (= (. 2 $1) (. 0 $0))
            nest 1 set $1 true
            reduce set (rec $0 $1) true''',
         [3, 1, 31, 2, 1, 11, 1, 40, 500, 9, 2, 12, 1, 35, 300, 9,
          2, 32, 2, 3, 13, 2, 28, 400, 8, 4, 14, 2, 45, 250, 8, 3, 33, 0],
         plain=lambda: setof((d, setof(e for e in EMPLOYEES if e.dno == d.dno)) for d in DEPTS)),
    Case('000-7.1-query-b', '§7.1, query B; 002 Eqv. 48', 'A ⊆ B = ∧{ ∨{ true | b ← B, a=b } | a ← A }',
         [S, S123],
         'all{ some{ true | b <- S123, a.n = b.n } | a <- S }',
         '''join 0 true
            outer 1 (= (. 0 $0) (. 0 $1))
            nest 1 some true true
            reduce all $1 true''',
         [1], plain=lambda: {a.n for a in S} <= {b.n for b in S123}),
    Case('000-7.1-query-b-not', '§7.1, query B', 'the same, where A has an element that B has not',
         [S14, S123],
         'all{ some{ true | b <- S123, a.n = b.n } | a <- S14 }',
         '''join 0 true
            outer 1 (= (. 0 $0) (. 0 $1))
            nest 1 some true true
            reduce all $1 true''',
         [0], plain=lambda: {a.n for a in S14} <= {b.n for b in S123}),
    Case('000-7.1-query-c', '§7.1, query C',
         '''∪{ ⟨E=e, M=+{ 1 | c ← e.children, ∧{ c.age > d.age | d ← e.manager.children } }⟩
            | e ← Employees }''', [EMPLOYEES, CHILDREN],
         '''set{ (e, sum{ 1 | c <- bag{ k | k <- Children, k.parent = e.id },
                             all{ c.age > d.age | d <- bag{ g | g <- Children, g.parent = e.manager } } })
                 | e <- Employees }''',
         '''join 0 true
            outer 1 (= (. 0 $1) (. 0 $0))
            outer 1 (= (. 0 $2) (. 5 $0))
            nest 2 all (< (. 2 $2) (. 2 $1)) true
            nest 1 sum 1 $2
            reduce set (rec $0 $1) true''',
         [4, 1, 11, 1, 40, 500, 9, 1, 2, 12, 1, 35, 300, 9, 1,
          3, 13, 2, 28, 400, 8, 1, 4, 14, 2, 45, 250, 8, 0],
         plain=lambda: setof((e, sum(all(c.age > d.age for d in children(e.manager))
                                     for c in children(e.id))) for e in EMPLOYEES)),
    Case('000-7.1-query-d', '§7.1, query D',
         '''∪{ s | s ← Students, ∧{ ∨{ true | t ← Transcript, t.id=s.id, t.cno=c.cno }
            | c ← Courses, c.title = "DB" } }''', [STUDENTS, OFFERED, TRANSCRIPT],
         '''set{ s | s <- Students, all{ some{ true | t <- Transcript, t.id = s.id, t.cno = c.cno }
                                         | c <- Offered, c.title = 7 } }''',
         '''join 0 true
            outer 1 (= (. 1 $1) 7)
            outer 2 (and (= (. 0 $2) (. 0 $0)) (= (. 1 $2) (. 0 $1)))
            nest 2 some true true
            nest 1 all $2 true
            reduce set $0 $1''',
         [1, 1],
         plain=lambda: setof(s for s in STUDENTS if all((s.id, c.cno) in TRANSCRIPT.rows
                                                        for c in OFFERED if c.title == 7))),
    Case('000-7.4-total-salary', '§7.4, figure 12 A',
         '''∪{ ⟨E = e.dno, S = +{ u.salary | u ← Employees, u.age > 30, e.dno = u.dno }⟩
            | e ← Employees, e.age > 30 }''', [EMPLOYEES],
         '''set{ (e.dno, sum{ u.salary | u <- Employees, u.age > 30, e.dno = u.dno })
                 | e <- Employees, e.age > 30 }''',
         '''join 0 (< 30 (. 3 $0))
            outer 0 (and (< 30 (. 3 $1)) (= (. 2 $0) (. 2 $1)))
            nest 1 sum (. 4 $1) true
            reduce set (rec (. 2 $0) $1) true''',
         [2, 1, 800, 2, 250], G=7,
         plain=lambda: setof((e.dno, sum(u.salary for u in EMPLOYEES if u.age > 30 and e.dno == u.dno))
                             for e in EMPLOYEES if e.age > 30)),
    Case('000-7.4-view', '§7.4', '∪{ ⟨C=c, D=∪{ a.X + b.Y | a ← A, b ← B, a.N = b.M }⟩ | c ← C }',
         [S, A_XN, B_YM],
         'set{ (c, set{ a.X + b.Y | a <- A_XN, b <- B_YM, a.N = b.M }) | c <- S }',
         '''join 0 true
            outer 1 true
            outer 2 (= (. 1 $1) (. 1 $2))
            nest 1 set (+ (. 0 $1) (. 0 $2)) true
            reduce set (rec $0 $1) true''',
         [2, 1, 2, 11, 21, 2, 2, 11, 21],
         plain=lambda: setof((c, setof(a.X + b.Y for a in A_XN for b in B_YM if a.N == b.M))
                             for c in S)),
    Case('000-7.4-same-for-every-b', '§7.4, figure 12 C',
         '''∪{ ⟨A=a.X, B=∪{ ⟨A=a.X, B=+{ c.Z | c ← a.A }⟩ | b ← B, a.N = b.M }⟩ | a ← A }''',
         [A_XN, B_YM, Z],
         '''set{ (a.X, set{ (a.X, sum{ c.Z | c <- Z, c.X = a.X }) | b <- B_YM, a.N = b.M })
                 | a <- A_XN }''',
         '''join 0 true
            outer 1 (= (. 1 $0) (. 1 $1))
            outer 2 (= (. 0 $2) (. 0 $0))
            nest 2 sum (. 1 $2) true
            nest 1 set (rec (. 0 $0) $2) true
            reduce set (rec (. 0 $0) $1) true''',
         [2, 1, 1, 1, 101, 2, 0], G=9,
         plain=lambda: setof((a.X, setof((a.X, sum(c.Z for c in Z if c.X == a.X))
                                         for b in B_YM if a.N == b.M)) for a in A_XN)),
]

CASES = SMALL + TRANSLATED + NORMALISED + UNNESTED + BENCHMARK

LEFT_OUT = [
    ('§3', 'bag difference and element of a singleton',
     'The paper says itself that the calculus has neither; nor has 01.'),
    ('§4, rules N4 to N7', 'generators over `if`, zero, unit and merge',
     'A choice is one of numbers or of truths (02, E2); 01 has no written-out collection and no union of two collections as a term.'),
    ('§5.1', '+{ 1 | x ← ({1} ∪ {1}) }',
     '01 has no union, and refuses a sum over a set (26) instead of giving it a meaning.'),
    ('§5.2', 'reverse, first, nth, sort, insert, P(f, v)',
     'They need the monoid of function composition; functions are no values of 01.'),
    ('§5.3', 'vector merge, reverse, subseq, permute, concat, map, transpose, row, column, multiply, tiling',
     'They build vectors, whose merge overwrites; 01 leaves vectors out.'),
    ('§6.2', 'outer-join, outer-unnest and nest as queries (O5 to O7)',
     'They handle nulls, which are no values of 01; there they are operators of the plan.'),
]
