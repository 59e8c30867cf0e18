"""Source 001: Straube, Queries and Query Processing in Object-Oriented Database Systems."""
from case import Case
from notation import Table, setof

TITLE = 'Source 001: Queries and Query Processing in Object-Oriented Database Systems'

# The hypertext database of §2.5. An identifier stands for its object, 0 for none; what a method of
# an object gives is a column, or a table of its own where it is a set. Titles: 'As We May Think' 1,
# 'My Cat is Object-Oriented' 2. Words: boating 1, cars 2, cats 3, dogs 4, cycling 5. Fields of
# expertise: genetics 1, poetry 2, computers 3, medicine 4. Kinds of links: StructLink 1, RefLink 2,
# NoteLink 3.
DOC = Table('Doc', 'set', 'id author title root',
            (11, 1, 1, 101), (12, 2, 2, 102), (13, 4, 3, 103), (14, 2, 4, 104))
KEYWORD = Table('Keyword', 'set', 'doc word', (11, 1), (11, 2), (12, 1), (12, 3), (13, 4), (14, 2), (14, 3), (14, 4))
CO_AUTHOR = Table('CoAuthor', 'set', 'doc person', (11, 5), (12, 1), (12, 3), (13, 5))
PERSON = Table('Person', 'set', 'id age father mother',
               (1, 70, 0, 0), (2, 45, 1, 3), (3, 66, 0, 0), (4, 20, 2, 5), (5, 40, 0, 0))
EXPERTISE = Table('Expertise', 'set', 'person field', (1, 1), (2, 3), (3, 2), (4, 3), (5, 4))
NODE = Table('Node', 'set', 'id', (101,), (102,), (103,), (104,), (105,), (106,), (107,))
LINK = Table('Link', 'set', 'kind source target doc',
             (1, 101, 105, 11), (1, 105, 107, 11), (2, 105, 106, 11), (1, 102, 106, 12), (3, 103, 105, 13))
# Deep extents of example 5.5: 201 is a text that is not displayed, 301 is displayed and no text.
TEXT_OBJECT = Table('TextObject', 'set', 'id', (101,), (105,), (201,))
DISPLAY_OBJECT = Table('DisplayObject', 'set', 'id color', (101, 1), (105, 0), (301, 1))
TEXT_WORD = Table('TextWord', 'set', 'text word', (101, 3), (101, 5), (105, 5), (201, 5))

# <p, q>.children, over Person as c.
CHILD = 'c.father = p.id and c.mother = q.id or c.father = q.id and c.mother = p.id'


def about(doc, word):
    return (doc.id, word) in KEYWORD.rows


def knows(person, field):
    return (person.id, field) in EXPERTISE.rows


def is_child(c, p, q):
    return {c.father, c.mother} == {p.id, q.id}


def retired(doc):
    return any(a.id == doc.author and a.age > 65 for a in PERSON)


CALCULUS = [
    Case('001-3.2-author', 'Example 3.2, 1',
         '{ o | ∃p(Doc(p) ∧ o == <p>.author ∧ "As We May Think" = <p>.title) }', [DOC, PERSON],
         'set{ o | o <- Person, some{ o.id = p.author and p.title = 1 | p <- Doc } }',
         '''join 1 true
            join 0 (and (= (. 0 $0) (. 1 $1)) (= (. 2 $1) 1))
            reduce set $0 true''',
         [1, 1, 70, 0, 0],
         plain=lambda: setof(o for o in PERSON for p in DOC if o.id == p.author and p.title == 1)),
    Case('001-3.2-nodes', 'Example 3.2, 2',
         '''{ o | ∃p(Doc(p) ∧ "As We May Think" = <p>.title ∧ ∃q(Link*(q) ∧ p == <q>.part_of
            ∧ (o == <q>.from ∨ o == <q>.to))) }''', [DOC, LINK, NODE],
         '''set{ o | o <- Node, some{ some{ p.id = q.doc and (o.id = q.source or o.id = q.target)
                                           | q <- Link } | p <- Doc, p.title = 1 } }''',
         '''join 2 true
            join 0 (= (. 2 $1) 1)
            join 1 (and (= (. 0 $1) (. 3 $2)) (or (= (. 0 $0) (. 1 $2)) (= (. 0 $0) (. 2 $2))))
            reduce set $0 true''',
         [4, 101, 105, 106, 107], G=7,
         plain=lambda: setof(o for o in NODE for p in DOC if p.title == 1 for q in LINK
                             if q.doc == p.id and o.id in (q.source, q.target))),
    Case('001-3.2-father', 'Example 3.2, 3',
         '''{ o | ∃p(Doc(o) ∧ p == <o>.author ∧ ∃q(q ∈ <o>.co_authors ∧ q == <p>.father)) }''',
         [DOC, PERSON, CO_AUTHOR],
         '''set{ o | o <- Doc, some{ p.id = o.author and some{ q.doc = o.id and q.person = p.father
                                                              | q <- CoAuthor } | p <- Person } }''',
         '''join 0 true
            join 1 (= (. 0 $1) (. 1 $0))
            join 2 (and (= (. 0 $2) (. 0 $0)) (= (. 1 $2) (. 2 $1)))
            reduce set $0 true''',
         [1, 12, 2, 2, 102],
         plain=lambda: setof(o for o in DOC for p in PERSON if p.id == o.author
                             and (o.id, p.father) in CO_AUTHOR.rows)),
    Case('001-3.2-boating', 'Example 3.2, 4',
         '{ o | ∀p(Doc(p) ∧ o == <p>.author ∧ "Boating" ∈ <p>.keywords) }', [DOC, KEYWORD],
         '''set{ d.author | d <- Doc, all{ some{ k.word = 1 | k <- Keyword, k.doc = p.id }
                                            | p <- Doc, p.author = d.author } }''',
         '''join 0 true
            outer 0 (= (. 1 $1) (. 1 $0))
            outer 1 (= (. 0 $2) (. 0 $1))
            nest 2 some (= (. 1 $2) 1) true
            nest 1 all $2 true
            reduce set (. 1 $0) $1''',
         [1, 1],
         plain=lambda: setof(d.author for d in DOC
                             if all(about(p, 1) for p in DOC if p.author == d.author)),
         says='As the paper says it in words: each document of that author has the word.'),
    Case('001-3.3-children', 'Example 3.3',
         '''{ o | ∃p(Person(p) ∧ "genetics" ∈ <p>.expertise ∧ ∃q(Person(q) ∧ "poetry" ∈ <q>.expertise
            ∧ o ∈ <p, q>.children)) }''', [PERSON, EXPERTISE],
         '''set{ o | p <- Person, some{ e.field = 1 | e <- Expertise, e.person = p.id },
                     q <- Person, some{ f.field = 2 | f <- Expertise, f.person = q.id },
                     o <- set{ c | c <- Person, %s } }''' % CHILD,
         '''join 0 true
            join 1 (and (= (. 0 $1) (. 0 $0)) (= (. 1 $1) 1))
            join 0 true
            join 1 (and (= (. 0 $3) (. 0 $2)) (= (. 1 $3) 2))
            join 0 (or (and (= (. 2 $4) (. 0 $0)) (= (. 3 $4) (. 0 $2))) (and (= (. 2 $4) (. 0 $2)) (= (. 3 $4) (. 0 $0))))
            reduce set $4 true''',
         [1, 2, 45, 1, 3],
         plain=lambda: setof(o for p in PERSON if knows(p, 1) for q in PERSON if knows(q, 2)
                             for o in PERSON if is_child(o, p, q))),
    Case('001-3.4-ages', 'Example 3.4, 1', '{ o | Number(o) ∧ ∃p(Person(p) ∧ o == <p>.age) }', [PERSON],
         'set{ p.age | p <- Person }',
         '''join 0 true
            reduce set (. 1 $0) true''',
         [5, 20, 40, 45, 66, 70], plain=lambda: setof(p.age for p in PERSON)),
]

ALGEBRA = [
    Case('001-4.1-cars', 'Example 4.1',
         '''Doc σ["car" ∈ <d>.keywords ∧ p == <d>.author ∧ "50" = x ∧ "True" = <p, x>.age.greater]
            ⟨Person⟩''', [DOC, PERSON, KEYWORD],
         '''set{ d | d <- Doc, p <- Person, some{ k.word = 2 | k <- Keyword, k.doc = d.id },
                     p.id = d.author, p.age > 50 }''',
         '''join 0 true
            join 1 (and (= (. 0 $1) (. 1 $0)) (< 50 (. 1 $1)))
            join 2 (and (= (. 0 $2) (. 0 $0)) (= (. 1 $2) 2))
            reduce set $0 true''',
         [1, 11, 1, 1, 101],
         plain=lambda: setof(d for d in DOC for p in PERSON
                             if about(d, 2) and p.id == d.author and p.age > 50)),
    Case('001-4.2-co-authors', 'Example 4.2',
         '''Doc γ^t["My Cat..." = <d>.title ∧ t ∈ <d>.co_authors] ⟨⟩''', [DOC, CO_AUTHOR, PERSON],
         '''set{ t | d <- Doc, d.title = 2,
                     t <- set{ p | c <- CoAuthor, c.doc = d.id, p <- Person, p.id = c.person } }''',
         '''join 0 (= (. 2 $0) 2)
            join 1 (= (. 0 $1) (. 0 $0))
            join 2 (= (. 0 $2) (. 1 $1))
            reduce set $2 true''',
         [2, 1, 70, 0, 0, 3, 66, 0, 0],
         plain=lambda: setof(p for d in DOC if d.title == 2 for p in PERSON
                             if (d.id, p.id) in CO_AUTHOR.rows)),
    Case('001-4.4-retired', 'Example 4.4',
         '''Doc(p) ∧ "65" = q ∧ "True" = <p, q>.author.age.greater ∧ StructLink(r)
            ∧ p == <r>.part_of ∧ (o == <r>.from ∨ o == <r>.to)''', [DOC, PERSON, LINK, NODE],
         '''set{ o | p <- Doc, some{ a.id = p.author and a.age > 65 | a <- Person },
                     r <- Link, r.kind = 1, p.id = r.doc, o <- Node, o.id = r.source or o.id = r.target }''',
         '''join 0 true
            join 1 (and (= (. 0 $1) (. 1 $0)) (< 65 (. 1 $1)))
            join 2 (and (= (. 0 $2) 1) (= (. 0 $0) (. 3 $2)))
            join 3 (or (= (. 0 $3) (. 1 $2)) (= (. 0 $3) (. 2 $2)))
            reduce set $3 true''',
         [3, 101, 105, 107], G=5,
         plain=lambda: setof(o for p in DOC if retired(p) for r in LINK if r.kind == 1 and r.doc == p.id
                             for o in NODE if o.id in (r.source, r.target)),
         says='From its atoms; the expression itself is lost in the text that we have.'),
    Case('001-4.4-algebra', 'Example 4.4, disjunct D1',
         '(StructLink σ[a5] ⟨(Doc σ[a3] ⟨⟩)⟩) γ^t[a6] ⟨⟩', [DOC, PERSON, LINK, NODE],
         '''set{ o | r <- set{ s | s <- Link, s.kind = 1,
                                   d <- set{ p | p <- Doc, some{ a.id = p.author and a.age > 65 | a <- Person } },
                                   d.id = s.doc },
                     o <- Node, o.id = r.source }''',
         '''join 2 (= (. 0 $0) 1)
            join 0 (= (. 0 $1) (. 3 $0))
            join 1 (and (= (. 0 $2) (. 1 $1)) (< 65 (. 1 $2)))
            join 3 (= (. 0 $3) (. 1 $0))
            reduce set $3 true''',
         [2, 101, 105],
         plain=lambda: setof(o for r in LINK if r.kind == 1 and any(d.id == r.doc and retired(d) for d in DOC)
                             for o in NODE if o.id == r.source)),
    Case('001-5.5-color', 'Example 5.5',
         '''TextObject* σ["cycling" ∈ <t>.keywords ∧ "True" = <d>.isColor ∧ d == t] ⟨DisplayObject*⟩''',
         [TEXT_OBJECT, DISPLAY_OBJECT, TEXT_WORD],
         '''set{ t | t <- TextObject, d <- DisplayObject, some{ k.word = 5 | k <- TextWord, k.text = t.id },
                     d.color = 1, d.id = t.id }''',
         '''join 0 true
            join 1 (and (= (. 1 $1) 1) (= (. 0 $1) (. 0 $0)))
            join 2 (and (= (. 0 $2) (. 0 $0)) (= (. 1 $2) 5))
            reduce set $0 true''',
         [1, 101],
         plain=lambda: setof(t for t in TEXT_OBJECT if (t.id, 5) in TEXT_WORD.rows
                             and (t.id, 1) in DISPLAY_OBJECT.rows)),
]

REWRITTEN = [
    Case('001-6.1-roots', 'Example 6.1', '((Doc σ[F1] ⟨⟩) ∪ (Doc σ[F2] ⟨⟩)) ↦rootNode ⟨⟩', [DOC, KEYWORD, NODE],
         '''set{ n | d <- Doc,
                     some{ a.id = d.id | a <- Doc, some{ k.word = 3 | k <- Keyword, k.doc = a.id } }
                     or some{ b.id = d.id | b <- Doc, some{ m.word = 4 | m <- Keyword, m.doc = b.id } },
                     n <- Node, n.id = d.root }''',
         '''join 0 true
            join 2 (= (. 0 $1) (. 3 $0))
            outer 0 true
            outer 1 (and (= (. 0 $3) (. 0 $2)) (= (. 1 $3) 3))
            nest 2 some (= (. 0 $2) (. 0 $0)) true
            outer 0 true
            outer 1 (and (= (. 0 $4) (. 0 $3)) (= (. 1 $4) 4))
            nest 3 some (= (. 0 $3) (. 0 $0)) true
            reduce set $1 (or $2 $3)''',
         [3, 102, 103, 104],
         plain=lambda: setof(n for d in DOC if about(d, 3) or about(d, 4) for n in NODE if n.id == d.root),
         says='01 has no union; P ∪ Q is { o | P(o) ∨ Q(o) }, as the paper says, here over Doc.'),
    Case('001-6.1-roots-union', 'Example 6.1, by rule 6.33',
         '((Doc σ[F1] ⟨⟩) ↦rootNode ⟨⟩) ∪ ((Doc σ[F2] ⟨⟩) ↦rootNode ⟨⟩)', [DOC, KEYWORD, NODE],
         '''set{ n | n <- Node,
                     some{ n.id = d.root | d <- Doc, some{ k.word = 3 | k <- Keyword, k.doc = d.id } }
                     or some{ n.id = e.root | e <- Doc, some{ m.word = 4 | m <- Keyword, m.doc = e.id } } }''',
         '''join 2 true
            outer 0 true
            outer 1 (and (= (. 0 $2) (. 0 $1)) (= (. 1 $2) 3))
            nest 1 some (= (. 0 $0) (. 3 $1)) true
            outer 0 true
            outer 1 (and (= (. 0 $3) (. 0 $2)) (= (. 1 $3) 4))
            nest 2 some (= (. 0 $0) (. 3 $2)) true
            reduce set $0 (or $1 $2)''',
         [3, 102, 103, 104],
         plain=lambda: setof(n for n in NODE if any(n.id == d.root for d in DOC if about(d, 3))
                             or any(n.id == e.root for e in DOC if about(e, 4))),
         says='Likewise, over Node.'),
    Case('001-6.2-either', 'Example 6.2', 'Doc σ[F1 ∨ F2] ⟨⟩', [DOC, KEYWORD],
         '''set{ d | d <- Doc, some{ k.word = 3 | k <- Keyword, k.doc = d.id }
                               or some{ m.word = 4 | m <- Keyword, m.doc = d.id } }''',
         '''join 0 true
            outer 1 (= (. 0 $1) (. 0 $0))
            nest 1 some (= (. 1 $1) 3) true
            outer 1 (= (. 0 $2) (. 0 $0))
            nest 2 some (= (. 1 $2) 4) true
            reduce set $0 (or $1 $2)''',
         [3, 12, 2, 2, 102, 13, 4, 3, 103, 14, 2, 4, 104],
         plain=lambda: setof(d for d in DOC if about(d, 3) or about(d, 4))),
    Case('001-6.3-child', 'Example 6.3', 'Doc σ[a1 ∧ a2 ∧ a3 ∧ a4] ⟨Person, Person⟩', [DOC, PERSON, EXPERTISE],
         '''set{ d | d <- Doc, p <- Person, q <- Person, x <- set{ c | c <- Person, %s }, x.id = d.author,
                     some{ e.field = 3 | e <- Expertise, e.person = p.id },
                     some{ f.field = 4 | f <- Expertise, f.person = q.id } }''' % CHILD,
         '''join 0 true
            join 1 true
            join 1 true
            join 1 (and (or (and (= (. 2 $3) (. 0 $1)) (= (. 3 $3) (. 0 $2))) (and (= (. 2 $3) (. 0 $2)) (= (. 3 $3) (. 0 $1)))) (= (. 0 $3) (. 1 $0)))
            join 2 (and (= (. 0 $4) (. 0 $1)) (= (. 1 $4) 3))
            join 2 (and (= (. 0 $5) (. 0 $2)) (= (. 1 $5) 4))
            reduce set $0 true''',
         [1, 13, 4, 3, 103],
         plain=lambda: setof(d for d in DOC for p in PERSON if knows(p, 3) for q in PERSON if knows(q, 4)
                             for c in PERSON if is_child(c, p, q) and c.id == d.author)),
    Case('001-6.3-generated', 'Example 6.3, by rule 6.41',
         'Doc σ[a1] ⟨(Person γ^c[a2 ∧ a3 ∧ a4] ⟨Person⟩)⟩', [DOC, PERSON, EXPERTISE],
         '''set{ d | d <- Doc,
                     x <- set{ c | p <- Person, some{ e.field = 3 | e <- Expertise, e.person = p.id },
                                   q <- Person, some{ f.field = 4 | f <- Expertise, f.person = q.id },
                                   c <- Person, %s },
                     x.id = d.author }''' % CHILD,
         '''join 0 true
            join 1 true
            join 2 (and (= (. 0 $2) (. 0 $1)) (= (. 1 $2) 3))
            join 1 true
            join 2 (and (= (. 0 $4) (. 0 $3)) (= (. 1 $4) 4))
            join 1 (and (or (and (= (. 2 $5) (. 0 $1)) (= (. 3 $5) (. 0 $3))) (and (= (. 2 $5) (. 0 $3)) (= (. 3 $5) (. 0 $1)))) (= (. 0 $5) (. 1 $0)))
            reduce set $0 true''',
         [1, 13, 4, 3, 103],
         plain=lambda: setof(d for d in DOC
                             for c in [c for p in PERSON if knows(p, 3) for q in PERSON if knows(q, 4)
                                       for c in PERSON if is_child(c, p, q)] if c.id == d.author)),
    Case('001-6.4-child', 'Example 6.4', '(Person σ[a3] ⟨⟩) γ^c[a4] ⟨(Person σ[a2] ⟨⟩)⟩', [PERSON, EXPERTISE],
         '''set{ c | q <- set{ r | r <- Person, some{ f.field = 4 | f <- Expertise, f.person = r.id } },
                     p <- set{ s | s <- Person, some{ e.field = 3 | e <- Expertise, e.person = s.id } },
                     c <- Person, %s }''' % CHILD,
         '''join 0 true
            join 1 (and (= (. 0 $1) (. 0 $0)) (= (. 1 $1) 4))
            join 0 true
            join 1 (and (= (. 0 $3) (. 0 $2)) (= (. 1 $3) 3))
            join 0 (or (and (= (. 2 $4) (. 0 $2)) (= (. 3 $4) (. 0 $0))) (and (= (. 2 $4) (. 0 $0)) (= (. 3 $4) (. 0 $2))))
            reduce set $4 true''',
         [1, 4, 20, 2, 5],
         plain=lambda: setof(c for q in PERSON if knows(q, 4) for p in PERSON if knows(p, 3)
                             for c in PERSON if is_child(c, p, q))),
]

CASES = CALCULUS + ALGEBRA + REWRITTEN

LEFT_OUT = [
    ('Examples 3.1 and 4.3', 'the atoms p == q, p ∈ ⟨q, r⟩.mlist, a = p and the others',
     'They are parts of queries. Where a query above has one, identity is equality of identifiers.'),
    ('Example 3.4, 2', '{ o | Number(o) ∧ ∃p("65" = p ∧ "True" = ⟨o, p⟩.greater) }',
     'It is the paper\'s example of an unsafe query: no table has every number.'),
    ('Example 3.4, 3', '{ o | (%x2 .. %xn)(C(x1) ∧ x2 == ⟨x1⟩.mlist1 ∧ ..) }',
     'It is a scheme of queries; 4.4 goes along such a path.'),
    ('Examples 5.1 to 5.4', 'conformance and most specific common types', 'They are about a type lattice, and 01 has none.'),
    ('Example 6.5', '(C1 ∪ C2 ∪ C3 ∪ C4) σ[F] ⟨⟩',
     'Its classes and F are general, and 01 has no union; a deep extent is a table, as in 5.5.'),
    ('Examples 7.1 to 7.3', 'atom evaluations and stream reductions', 'They are steps of access plans and no queries.'),
]
