"""Source 004: Fegaras and Maier, Towards an Effective Calculus for Object Query Languages."""
from case import Case
from notation import Table, bagof, most, setof
from tables_000 import B, L

TITLE = 'Source 004: Towards an Effective Calculus for Object Query Languages'

# Portland is 1, Hilton 7. The Hilton in Portland has two rooms with three beds.
CITIES = Table('Cities', 'bag', 'id name', (11, 1), (12, 2))
HOTELS = Table('Hotels', 'bag', 'id city name address',
               (1, 11, 7, 501), (2, 11, 8, 502), (3, 12, 7, 503), (4, 11, 9, 504))
ROOMS = Table('Rooms', 'bag', 'hotel beds', (1, 2), (1, 3), (1, 3), (2, 1), (4, 3))
PLACES = Table('Places', 'bag', 'city name', (11, 8), (11, 5), (12, 7))
X = Table('X', 'set', 'A B', (1, 7), (2, 8))


def hotels(city):
    return [h for h in HOTELS if h.city == city]


CASES = [
    Case('004-2.1-binding', '§2.1', 'set{ b.D | a ← x, b ≡ y, a.B=b.C }', [X],
         'set{ b.1 | a <- X, let b = (7, 5), a.B = b.0 }',
         '''join 0 (= (. 1 $0) 7)
            reduce set 5 true''',
         [1, 5], plain=lambda: setof(b[1] for a in X for b in [(7, 5)] if a.B == b[0])),
    Case('004-2.3-hilton', '§2.3',
         '''bag{ h.address | hl ← bag{ c.hotels | c ← Cities, c.name="Portland" }, h ← hl,
            h.name="Hilton" }''', [CITIES, HOTELS],
         '''bag{ h.address | hl <- bag{ bag{ k | k <- Hotels, k.city = c.id } | c <- Cities, c.name = 1 },
                             h <- hl, h.name = 7 }''',
         '''join 0 (= (. 1 $0) 1)
            join 1 (and (= (. 1 $1) (. 0 $0)) (= (. 2 $1) 7))
            reduce bag (. 3 $1) true''',
         [1, 501],
         plain=lambda: bagof(h.address for c in CITIES if c.name == 1 for h in hotels(c.id)
                             if h.name == 7)),
    Case('004-2.3-places', '§2.3',
         '''set{ h.name | c ← Cities, h ← c.hotels, p ← c.places_to_visit, c.name="Portland",
            h.name=p.name }''', [CITIES, HOTELS, PLACES],
         '''set{ h.name | c <- Cities, h <- bag{ k | k <- Hotels, k.city = c.id },
                 p <- bag{ q | q <- Places, q.city = c.id }, c.name = 1, h.name = p.name }''',
         '''join 0 (= (. 1 $0) 1)
            join 1 (= (. 1 $1) (. 0 $0))
            join 2 (and (= (. 0 $2) (. 0 $0)) (= (. 2 $1) (. 1 $2)))
            reduce set (. 2 $1) true''',
         [1, 8],
         plain=lambda: setof(h.name for c in CITIES if c.name == 1 for h in hotels(c.id)
                             for p in PLACES if p.city == c.id and h.name == p.name)),
    Case('004-2.3-group', '§2.3',
         '''group x in e by (A1: e1(x)) → set{ ⟨A1=e1(x), partition=set{ a | a ← e,
            e1(a)=e1(x) }⟩ | x ← e }''', [HOTELS],
         'set{ (x.city, set{ a | a <- Hotels, a.city = x.city }) | x <- Hotels }',
         '''join 0 true
            outer 0 (= (. 1 $1) (. 1 $0))
            nest 1 set $1 true
            reduce set (rec (. 1 $0) $1) true''',
         [2, 11, 3, 1, 11, 7, 501, 2, 11, 8, 502, 4, 11, 9, 504, 12, 1, 3, 12, 7, 503], G=49,
         plain=lambda: setof((x.city, setof(hotels(x.city))) for x in HOTELS)),
    Case('004-2.3-group-with', '§2.3',
         '''group x in e by (A1: e1(x)) with (B1: u1(x, partition), B2: u2(x, partition))''', [HOTELS],
         '''set{ (x.city, some{ p.name = 8 | p <- partition }, max{ q.address | q <- partition })
                 | x <- Hotels, let partition = set{ a | a <- Hotels, a.city = x.city } }''',
         '''join 0 true
            outer 0 (= (. 1 $1) (. 1 $0))
            nest 1 some (= (. 2 $1) 8) true
            outer 0 (= (. 1 $2) (. 1 $0))
            nest 2 max (. 3 $2) true
            reduce set (rec (. 1 $0) $1 $2) true''',
         [2, 11, 1, 504, 12, 0, 503], G=13,
         plain=lambda: setof((x.city, any(p.name == 8 for p in hotels(x.city)),
                              most(q.address for q in hotels(x.city))) for x in HOTELS)),
    Case('004-2.3-group-count', '§2.3', 'the same with B1: count(partition), partition being a set', [HOTELS],
         '''set{ (x.city, sum{ 1 | p <- partition })
                 | x <- Hotels, let partition = set{ a | a <- Hotels, a.city = x.city } }''',
         refused=26),
    Case('004-2.3-three-beds', '§2.3',
         '''bag{ h.name | hl ← bag{ c.hotels | c ← Cities, c.name="Portland" }, h ← hl,
            some{ r.bed#=3 | r ← h.rooms } }''', [CITIES, HOTELS, ROOMS],
         '''bag{ h.name | hl <- bag{ bag{ k | k <- Hotels, k.city = c.id } | c <- Cities, c.name = 1 },
                          h <- hl, some{ r.beds = 3 | r <- bag{ m | m <- Rooms, m.hotel = h.id } } }''',
         '''join 0 (= (. 1 $0) 1)
            join 1 (= (. 1 $1) (. 0 $0))
            outer 2 (= (. 0 $2) (. 0 $1))
            nest 2 some (= (. 1 $2) 3) true
            reduce bag (. 2 $1) $2''',
         [2, 7, 9],
         plain=lambda: bagof(h.name for c in CITIES if c.name == 1 for h in hotels(c.id)
                             if any(r.beds == 3 for r in ROOMS if r.hotel == h.id))),
    Case('004-3-three-beds', '§3',
         '''bag{ h.name | c ← Cities, c.name="Portland", h ← c.hotels, r ← h.rooms, r.bed#=3 }''',
         [CITIES, HOTELS, ROOMS],
         '''bag{ h.name | c <- Cities, c.name = 1, h <- bag{ k | k <- Hotels, k.city = c.id },
                          r <- bag{ m | m <- Rooms, m.hotel = h.id }, r.beds = 3 }''',
         '''join 0 (= (. 1 $0) 1)
            join 1 (= (. 1 $1) (. 0 $0))
            join 2 (and (= (. 0 $2) (. 0 $1)) (= (. 1 $2) 3))
            reduce bag (. 2 $1) true''',
         [3, 7, 7, 9],
         plain=lambda: bagof(h.name for c in CITIES if c.name == 1 for h in hotels(c.id)
                             for r in ROOMS if r.hotel == h.id and r.beds == 3),
         says='''The paper takes this for the normal form of the query above; a hotel with two such
                 rooms comes twice. 01 flattens "some" in set, max, min, some and all only.'''),
    Case('004-3-sql3', '§3',
         '''set{ addr | hs ← set{ c.hotels | c ← cities, c.name="C" }, addr ← set{ h.address | h ← hs,
            h.name="H" } }''', [CITIES, HOTELS],
         '''set{ addr | hs <- set{ set{ k | k <- Hotels, k.city = c.id } | c <- Cities, c.name = 1 },
                        addr <- set{ h.address | h <- hs, h.name = 7 } }''',
         '''join 0 (= (. 1 $0) 1)
            join 1 (and (= (. 1 $1) (. 0 $0)) (= (. 2 $1) 7))
            reduce set (. 3 $1) true''',
         [1, 501],
         plain=lambda: setof(h.address for c in CITIES if c.name == 1 for h in hotels(c.id)
                             if h.name == 7)),
    Case('004-3-commute', '§3', 'M{ e | v1 ← e1, v2 ← e2 }', [L, B],
         'bag{ (a.n, b.n) | a <- L, b <- B }',
         '''join 0 true
            join 1 true
            reduce bag (rec (. 0 $0) (. 0 $1)) true''',
         [6, 1, 4, 1, 5, 2, 4, 2, 5, 3, 4, 3, 5],
         plain=lambda: bagof((a.n, b.n) for a in L for b in B)),
    Case('004-3-commuted', '§3', '→ M{ e | v2 ← e2, v1 ← e1 }', [L, B],
         'bag{ (a.n, b.n) | b <- B, a <- L }',
         '''join 1 true
            join 0 true
            reduce bag (rec (. 0 $1) (. 0 $0)) true''',
         [6, 1, 4, 1, 5, 2, 4, 2, 5, 3, 4, 3, 5],
         plain=lambda: bagof((a.n, b.n) for b in B for a in L)),
    Case('004-3-selection', '§3', 'M{ e | v ← e1, p }, p being free of v', [L, B],
         'bag{ (a.n, b.n) | a <- L, b <- B, a.n < 2 }',
         '''join 0 (< (. 0 $0) 2)
            join 1 true
            reduce bag (rec (. 0 $0) (. 0 $1)) true''',
         [2, 1, 4, 1, 5], plain=lambda: bagof((a.n, b.n) for a in L for b in B if a.n < 2)),
    Case('004-3-selection-pushed', '§3', '→ M{ e | p, v ← e1 }', [L, B],
         'bag{ (a.n, b.n) | a <- L, a.n < 2, b <- B }',
         '''join 0 (< (. 0 $0) 2)
            join 1 true
            reduce bag (rec (. 0 $0) (. 0 $1)) true''',
         [2, 1, 4, 1, 5], plain=lambda: bagof((a.n, b.n) for a in L if a.n < 2 for b in B)),
]

LEFT_OUT = [
    ('§2', 'the monoids oset, string, sorted[f] and prod', 'They are no monoids of 01.'),
    ('§2.2', 'the example of a valid expression', 'It is lost in the text that we have.'),
    ('§2.3', 'sort x in e1 by e2', '01 has no sorted monoid; a bag is written ascending in any case.'),
    ('§4', 'select list e.B from e in (sort s in x by s.A)',
     'It needs the sorted monoid, and a list may not range over a bag or set in 01 (26).'),
    ('§4.1', 'vector reverse, subseq, permute and the matrix operations',
     'They build vectors; 01 leaves vectors out. sum_all and inner are under source 000.'),
    ('§4.2', 'list{ !x | x ← [new(1), new(2)], x := !x + 1 } and the six after it',
     'They make and change objects; 01 leaves identity and updates out.'),
    ('§4.2', 'inserting a hotel', 'It is an update; 01 leaves updates out.'),
]
