"""Source 000, figure 13: the queries of its performance evaluation."""
from case import Case
from notation import bagof, setof
from tables_000 import (COURSES, DEPARTMENTS, INSTRUCTORS, PREREQUISITES, TEACHING, instructors,
                        teaches)

BENCHMARK = [
    Case('000-13-1', 'figure 13, 1',
         'select x: e.name, y: (select c.name from c in e.teaches) from e in Instructors',
         [INSTRUCTORS, COURSES],
         '''bag{ (e.name, bag{ c.name | c <- bag{ k | k <- Courses, k.by = e.ssn } })
                 | e <- Instructors }''',
         '''join 0 true
            outer 1 (= (. 3 $1) (. 0 $0))
            nest 1 bag (. 1 $1) true
            reduce bag (rec (. 1 $0) $1) true''',
         [4, 101, 2, 2320, 5331, 102, 1, 5330, 103, 1, 3330, 104, 0],
         plain=lambda: bagof((e.name, bagof(c.name for c in teaches(e.ssn))) for e in INSTRUCTORS)),
    Case('000-13-2', 'figure 13, 2',
         'select x: e.name, y: count(e.dept.instructors) from e in Instructors',
         [INSTRUCTORS, DEPARTMENTS],
         '''bag{ (e.name, sum{ 1 | d <- Departments, d.dno = e.dept, i <- Instructors, i.dept = d.dno })
                 | e <- Instructors }''',
         '''join 0 true
            outer 1 (= (. 0 $1) (. 5 $0))
            outer 0 (= (. 5 $2) (. 0 $1))
            nest 1 sum 1 true
            reduce bag (rec (. 1 $0) $1) true''',
         [4, 101, 3, 102, 3, 103, 1, 104, 3],
         plain=lambda: bagof((e.name, len(instructors(e.dept))) for e in INSTRUCTORS)),
    Case('000-13-3', 'figure 13, 3',
         '''select x: e.name, y: (select x: c.name, y: count(c.has_prerequisites) from c in e.teaches)
            from e in Instructors''', [INSTRUCTORS, COURSES, PREREQUISITES],
         '''bag{ (e.name, bag{ (c.name, sum{ 1 | p <- Prerequisites, p.course = c.code })
                               | c <- Courses, c.by = e.ssn })
                 | e <- Instructors }''',
         '''join 0 true
            outer 1 (= (. 3 $1) (. 0 $0))
            outer 2 (= (. 0 $2) (. 0 $1))
            nest 2 sum 1 true
            nest 1 bag (rec (. 1 $1) $2) true
            reduce bag (rec (. 1 $0) $1) true''',
         [4, 101, 2, 2320, 0, 5331, 2, 102, 1, 5330, 1, 103, 1, 3330, 0, 104, 0],
         plain=lambda: bagof((e.name, bagof((c.name, sum(p.course == c.code for p in PREREQUISITES))
                                            for c in teaches(e.ssn))) for e in INSTRUCTORS)),
    Case('000-13-4', 'figure 13, 4',
         'select x: dn, y: count(partition) from e in Instructors group by dn: e.rank', [INSTRUCTORS],
         '''set{ (dn, sum{ 1 | p <- partition }) | e <- Instructors, let dn = e.rank,
                 let partition = bag{ (s,) | s <- Instructors, s.rank = dn } }''',
         '''join 0 true
            outer 0 (= (. 4 $1) (. 4 $0))
            nest 1 sum 1 true
            reduce set (rec (. 4 $0) $1) true''',
         [3, 1, 1, 2, 1, 3, 2], G=9,
         plain=lambda: setof((e.rank, sum(s.rank == e.rank for s in INSTRUCTORS))
                             for e in INSTRUCTORS)),
    Case('000-13-5', 'figure 13, 5',
         '''select d.name, c: count(select * from e in d.instructors where e.rank="professor")
            from d in Departments order by count(..)''', [DEPARTMENTS, INSTRUCTORS],
         '''bag{ (sum{ 1 | e <- Instructors, e.dept = d.dno, e.rank = 3 }, d.name)
                 | d <- Departments }''',
         '''join 0 true
            outer 1 (and (= (. 5 $1) (. 0 $0)) (= (. 4 $1) 3))
            nest 1 sum 1 true
            reduce bag (rec $1 (. 1 $0)) true''',
         [3, 0, 30, 1, 10, 1, 20],
         plain=lambda: bagof((sum(e.rank == 3 for e in instructors(d.dno)), d.name)
                             for d in DEPARTMENTS),
         says='The count stands first: a bag is written ascending, which is the order asked for.'),
    Case('000-13-6', 'figure 13, 6',
         'select e.name, c: count(e.teaches) from e in Instructors where count(e.teaches) ≥ 4',
         [INSTRUCTORS, TEACHING],
         '''bag{ (e.name, sum{ 1 | c <- Teaching, c.ssn = e.ssn })
                 | e <- Instructors, sum{ 1 | k <- Teaching, k.ssn = e.ssn } >= 4 }''',
         '''join 0 true
            outer 1 (= (. 0 $1) (. 0 $0))
            nest 1 sum 1 true
            outer 1 (= (. 0 $2) (. 0 $0))
            nest 2 sum 1 true
            reduce bag (rec (. 1 $0) $2) (not (< $1 4))''',
         [2, 101, 9, 103, 8],
         plain=lambda: bagof((e.name, n) for e in INSTRUCTORS
                             for n in [sum(c.ssn == e.ssn for c in TEACHING)] if n >= 4)),
    Case('000-13-7', 'figure 13, 7',
         '''select x, y, c: count(c) from e in Instructors, c in e.teaches
            group by x: e.ssn, y: c.name having x>60 and y>"CSE5330"''', [INSTRUCTORS, COURSES],
         '''set{ (x, y, sum{ 1 | p <- partition })
                 | e <- Instructors, c <- Courses, c.by = e.ssn, let x = e.ssn, let y = c.name,
                   let partition = bag{ (f, k) | f <- Instructors, k <- Courses, k.by = f.ssn,
                                                 f.ssn = x, k.name = y },
                   x > 60, y > 5330 }''',
         '''join 0 (< 60 (. 0 $0))
            join 1 (and (= (. 3 $1) (. 0 $0)) (< 5330 (. 1 $1)))
            outer 0 (= (. 0 $2) (. 0 $0))
            outer 1 (and (= (. 3 $3) (. 0 $2)) (= (. 1 $3) (. 1 $1)))
            nest 2 sum 1 true
            reduce set (rec (. 0 $0) (. 1 $1) $2) true''',
         [1, 61, 5331, 1],
         plain=lambda: setof((e.ssn, c.name, sum(k.name == c.name for k in teaches(e.ssn)))
                             for e in INSTRUCTORS for c in teaches(e.ssn)
                             if e.ssn > 60 and c.name > 5330)),
    Case('000-13-8', 'figure 13, 8',
         '''select x: x, y: count(e) from e in Instructors group by x: count(e.teaches)
            having x>0''', [INSTRUCTORS, COURSES],
         '''set{ (x, sum{ 1 | p <- partition })
                 | e <- Instructors, let x = sum{ 1 | c <- Courses, c.by = e.ssn },
                   let partition = bag{ (s,) | s <- Instructors,
                                               sum{ 1 | k <- Courses, k.by = s.ssn } = x },
                   x > 0 }''',
         '''join 0 true
            outer 1 (= (. 3 $1) (. 0 $0))
            nest 1 sum 1 true
            outer 1 (= (. 3 $2) (. 0 $0))
            nest 2 sum 1 true
            outer 0 true
            outer 1 (= (. 3 $4) (. 0 $3))
            nest 4 sum 1 true
            outer 1 (= (. 3 $5) (. 0 $0))
            nest 5 sum 1 true
            nest 3 sum 1 (= $4 $5)
            reduce set (rec $2 $3) (< 0 $1)''',
         [2, 1, 2, 2, 1], G=7,
         plain=lambda: setof((x, sum(len(teaches(s.ssn)) == x for s in INSTRUCTORS))
                             for e in INSTRUCTORS for x in [len(teaches(e.ssn))] if x > 0)),
    Case('000-13-9', 'figure 13, 9',
         '''select x, y, c: count(e) from e in Instructors group by x: count(e.teaches),
            y: (exists c in e.teaches: c.name="CSE5330") having x>0''', [INSTRUCTORS, COURSES],
         '''set{ (x, y, sum{ 1 | p <- partition })
                 | e <- Instructors, let x = sum{ 1 | c <- Courses, c.by = e.ssn },
                   let y = some{ d.name = 5330 | d <- Courses, d.by = e.ssn },
                   let partition = bag{ (s,) | s <- Instructors,
                                               let z = some{ k.name = 5330 | k <- Courses, k.by = s.ssn },
                                               sum{ 1 | m <- Courses, m.by = s.ssn } = x,
                                               z and y or not z and not y },
                   x > 0 }''',
         '''join 0 true
            outer 1 (= (. 3 $1) (. 0 $0))
            nest 1 sum 1 true
            outer 1 (= (. 3 $2) (. 0 $0))
            nest 2 sum 1 true
            outer 1 (= (. 3 $3) (. 0 $0))
            nest 3 some (= (. 1 $3) 5330) true
            outer 0 true
            outer 1 (= (. 3 $5) (. 0 $4))
            nest 5 sum 1 true
            outer 1 (= (. 3 $6) (. 0 $0))
            nest 6 sum 1 true
            outer 1 (= (. 3 $7) (. 0 $4))
            nest 7 some (= (. 1 $7) 5330) true
            outer 1 (= (. 3 $8) (. 0 $0))
            nest 8 some (= (. 1 $8) 5330) true
            outer 1 (= (. 3 $9) (. 0 $4))
            nest 9 some (= (. 1 $9) 5330) true
            outer 1 (= (. 3 $10) (. 0 $0))
            nest 10 some (= (. 1 $10) 5330) true
            nest 4 sum 1 (and (= $5 $6) (or (and $7 $8) (and (not $9) (not $10))))
            reduce set (rec $2 $3 $4) (< 0 $1)''',
         [3, 1, 0, 1, 1, 1, 1, 2, 0, 1],
         plain=lambda: setof(
             (*key(e), sum(key(s) == key(e) for s in INSTRUCTORS))
             for key in [lambda e: (len(teaches(e.ssn)), any(c.name == 5330 for c in teaches(e.ssn)))]
             for e in INSTRUCTORS if key(e)[0] > 0),
         says='Equal takes numbers, so that two truths are equal is written with and, or, not.'),
    Case('000-13-10', 'figure 13, 10',
         '''select x: x, y: count(e) from d in Departments, e in d.instructors
            group by x: count(e.teaches) having x>0''', [DEPARTMENTS, INSTRUCTORS, COURSES],
         '''set{ (x, sum{ 1 | p <- partition })
                 | d <- Departments, e <- bag{ i | i <- Instructors, i.dept = d.dno },
                   let x = sum{ 1 | c <- Courses, c.by = e.ssn },
                   let partition = bag{ (f, s) | f <- Departments,
                                                 s <- bag{ j | j <- Instructors, j.dept = f.dno },
                                                 sum{ 1 | k <- Courses, k.by = s.ssn } = x },
                   x > 0 }''',
         '''join 0 true
            join 1 (= (. 5 $1) (. 0 $0))
            outer 2 (= (. 3 $2) (. 0 $1))
            nest 2 sum 1 true
            outer 2 (= (. 3 $3) (. 0 $1))
            nest 3 sum 1 true
            outer 0 true
            outer 1 (= (. 5 $5) (. 0 $4))
            outer 2 (= (. 3 $6) (. 0 $5))
            nest 6 sum 1 true
            outer 2 (= (. 3 $7) (. 0 $1))
            nest 7 sum 1 true
            nest 4 sum 1 (= $6 $7)
            reduce set (rec $3 $4) (< 0 $2)''',
         [2, 1, 2, 2, 1], G=7,
         plain=lambda: setof((x, sum(len(teaches(s.ssn)) == x
                                     for f in DEPARTMENTS for s in instructors(f.dno)))
                             for d in DEPARTMENTS for e in instructors(d.dno)
                             for x in [len(teaches(e.ssn))] if x > 0)),
    Case('000-13-11', 'figure 13, 11',
         'sum(select sum(select e.salary from e in d.instructors) from d in Departments)',
         [DEPARTMENTS, INSTRUCTORS],
         'sum{ sum{ e.salary | e <- Instructors, e.dept = d.dno } | d <- Departments }',
         '''join 0 true
            outer 1 (= (. 5 $1) (. 0 $0))
            nest 1 sum (. 3 $1) true
            reduce sum $1 true''',
         [3000], plain=lambda: sum(e.salary for d in DEPARTMENTS for e in instructors(d.dno)),
         says="The paper's rule N10 makes one sum of the two; 01 has no such rule."),
    Case('000-13-12', 'figure 13, 12',
         '''select e.name, X: (select x from c in e.teaches group by x: count(c.has_prerequisites))
            from d in Departments, e in d.instructors''',
         [DEPARTMENTS, INSTRUCTORS, COURSES, PREREQUISITES],
         '''bag{ (e.name, set{ sum{ 1 | p <- Prerequisites, p.course = c.code }
                               | c <- Courses, c.by = e.ssn })
                 | d <- Departments, e <- bag{ i | i <- Instructors, i.dept = d.dno } }''',
         '''join 0 true
            join 1 (= (. 5 $1) (. 0 $0))
            outer 2 (= (. 3 $2) (. 0 $1))
            outer 3 (= (. 0 $3) (. 0 $2))
            nest 3 sum 1 true
            nest 2 set $3 true
            reduce bag (rec (. 1 $1) $2) true''',
         [4, 101, 2, 0, 2, 102, 1, 1, 103, 1, 0, 104, 0],
         plain=lambda: bagof((e.name, setof(sum(p.course == c.code for p in PREREQUISITES)
                                            for c in teaches(e.ssn)))
                             for d in DEPARTMENTS for e in instructors(d.dno))),
    Case('000-13-13', 'figure 13, 13',
         '''select e from e in Instructors where for all c in e.teaches:
            exists d in c.is_prerequisite_for: d.name = "CSE5330"''',
         [INSTRUCTORS, COURSES, PREREQUISITES],
         '''bag{ e | e <- Instructors,
                 all{ some{ d.name = 5330 | d <- bag{ k | p <- Prerequisites, p.before = c.code,
                                                         k <- Courses, k.code = p.course } }
                      | c <- bag{ t | t <- Courses, t.by = e.ssn } } }''',
         '''join 0 true
            outer 1 (= (. 3 $1) (. 0 $0))
            outer 2 (= (. 1 $2) (. 0 $1))
            outer 1 (= (. 0 $3) (. 0 $2))
            nest 2 some (= (. 1 $3) 5330) true
            nest 1 all $2 true
            reduce bag $0 $1''',
         [1, 64, 104, 1004, 600, 1, 1],
         plain=lambda: bagof(e for e in INSTRUCTORS if all(
             any(d.name == 5330 for p in PREREQUISITES if p.before == c.code
                 for d in COURSES if d.code == p.course) for c in teaches(e.ssn)))),
]
