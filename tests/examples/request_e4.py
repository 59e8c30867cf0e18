"""Document 02, request E4: calendars, and whether a minute is open. In plain Python by its own dates."""
from case import Case
from edges import BERTHS, S, ones
from notation import Calendar, Table, bagof, most, setof
from request_e2 import MOST
from request_e5 import ABOVE

TITLE = 'Document 02, E4: lock and berth hours'

# Day 0 is a Saturday: 480 is its 08:00, 10,560 the next one's.
LOCK = Calendar('Lock', (5, 480, 720))
INNER = Calendar('Inner', (6, 0, 1440))
NEVER = Calendar('Never')
ALWAYS = Calendar('Always', *[(day, 0, 1440) for day in range(7)])
LATE = Calendar('Late', (5, 1439, 1440))
FRIDAYS = Calendar('Fridays', (4, 0, 1440))
RAGGED = Calendar('Ragged', (5, 100, 200), (5, 50, 150), (5, 50, 150), (5, 200, 201))
# Of each day one minute: 0 on Saturday, 1 on Sunday, up to 6 on Friday.
STEPS = Calendar('Steps', *[((day + 5) % 7, day, day + 1) for day in range(7)])
FULL = Calendar('Full', *[(5, 2 * n, 2 * n + 1) for n in range(32)])

ARRIVALS = Table('Arrivals', 'bag', 'ship minute', (1, 479), (2, 480), (3, 719), (4, 720), (5, 10560))
BEHIND = Table('Behind', 'bag', 'berth lock', (1, 0), (2, 1), (3, 0))
DAYS = Table('Days', 'list', 'minute', *[(1441 * day,) for day in range(7)])

LAST = 146097 * 1440 - 1

TRUE_WHEN = 'is true when that minute lies in a window of its weekday'
INCLUDES = 'A window includes its first minute and not its end'
OUTSIDE = 'Minutes outside the years are not open'
PRINTS = 'Kind 21 prints as (open n e)'
LAYOUT = 'a calendar record that breaks this layout or a fifth one'
NOT_LENT = '42, a calendar not lent, after 25 in a question'


def minutes(name, paper, calendar, asked, gives, says=''):
    """Whether each of these minutes is open, as a list of one record."""
    head = ', '.join('open(%s, %d)' % (calendar.name, minute) for minute in asked)
    printed = ' '.join('(open 0 %d)' % minute for minute in asked)
    return Case(name, 'E4', paper, [], 'list{ (%s) }' % head,
                '''join unit true
                   reduce list (rec %s) true''' % printed, [1] + gives, calendars=[calendar],
                plain=lambda: [tuple(calendar.open(minute) for minute in asked)], says=says)


def broken(name, calendars, says='', tables=(), ask='sum{ 7 }', refused=41, paper=LAYOUT, tail=0):
    return Case(name, 'E4', paper, list(tables), ask, refused=refused, calendars=calendars, tail=tail, says=says)


def asked(name, ask, refused, says='', tables=(), calendars=(LOCK,), paper=NOT_LENT):
    return Case(name, 'E4', paper, list(tables), ask, refused=refused, calendars=calendars, says=says)


MEANING = [
    minutes('e4-edges', INCLUDES, LOCK, [479, 480, 719, 720], [0, 1, 1, 0]),
    minutes('e4-weeks', TRUE_WHEN, LOCK, [10559, 10560, 10799, 10800], [0, 1, 1, 0], says='A week later.'),
    minutes('e4-other-days', TRUE_WHEN, LOCK, [1920, 3360, 4800, 6240, 7680, 9120], [0] * 6,
            says='The same minutes from Sunday to Friday.'),
    minutes('e4-late', INCLUDES, LATE, [1438, 1439, 1440], [0, 1, 0], says='No window goes over midnight.'),
    minutes('e4-ragged', 'a first minute and an end minute', RAGGED, [49, 50, 99, 149, 150, 199, 200, 201],
            [0, 1, 1, 1, 1, 1, 1, 0], says='Windows may overlap, touch and repeat, in any order.'),
    minutes('e4-never', 'one byte of windows (0 to 32)', NEVER, [0, 480], [0, 0]),
    minutes('e4-full', 'one byte of windows (0 to 32)', FULL, [0, 1, 62, 63, 64], [1, 0, 1, 0, 0]),
    minutes('e4-before', OUTSIDE, ALWAYS, [-1, -10080, -2147483648, 0], [0, 0, 0, 1]),
    minutes('e4-behind', OUTSIDE, ALWAYS, [LAST, LAST + 1, 2147483647], [1, 0, 0]),
    minutes('e4-last-friday', 'years 2000 to 2399, 146,097 days', FRIDAYS, [LAST - 1440, LAST - 1439, LAST], [0, 1, 1],
            says='The last day is a Friday.'),
    Case('e4-each-weekday', 'E4', 'Day 0 is 2000-01-01, a Saturday', [DAYS], 'all{ open(Steps, d.minute) | d <- Days }',
         '''join 0 true
            reduce all (open 0 (. 0 $0)) true''', [1], calendars=[STEPS],
         plain=lambda: all(STEPS.open(d.minute) for d in DAYS)),
    Case('e4-each-minute-behind', 'E4', INCLUDES, [DAYS], 'some{ open(Steps, d.minute + 1) | d <- Days }',
         '''join 0 true
            reduce some (open 0 (+ (. 0 $0) 1)) true''', [0], calendars=[STEPS],
         plain=lambda: any(STEPS.open(d.minute + 1) for d in DAYS)),
    Case('e4-no-wrap', 'E4', OUTSIDE, [], 'some{ open(Lock, 65536 * 65536 + 480) }',
         '''join unit true
            reduce some (open 0 (+ (* 65536 65536) 480)) true''', [0], calendars=[LOCK],
         plain=lambda: LOCK.open(2 ** 32 + 480)),
    Case('e4-greatest', 'E4', OUTSIDE, [], 'some{ open(Always, %s) }' % MOST,
         '''join unit true
            reduce some (open 0 (* -2147483648 -2147483648)) true''', [0], calendars=[ALWAYS],
         plain=lambda: ALWAYS.open(2 ** 62), says='A minute of bound 2^62.'),
    Case('e4-fourth', 'E4', 'numbered by position from 0', [], 'list{ (open(3, 480), open(2, 480)) }',
         '''join unit true
            reduce list (rec (open 3 480) (open 2 480)) true''', [1, 1, 0], calendars=[NEVER, INNER, LATE, LOCK],
         plain=lambda: [(LOCK.open(480), LATE.open(480))]),
]

IN_QUESTIONS = [
    Case('e4-arrivals', 'E4', PRINTS, [ARRIVALS], 'bag{ a.ship | a <- Arrivals, open(Lock, a.minute) }',
         '''join 0 (open 0 (. 1 $0))
            reduce bag (. 0 $0) true''', [3, 2, 3, 5], calendars=[LOCK],
         plain=lambda: bagof(a.ship for a in ARRIVALS if LOCK.open(a.minute))),
    Case('e4-behind-open-lock', 'E4', 'which berths lie behind an open lock', [BEHIND],
         'bag{ h.berth | let now = 10560, h <- Behind, if h.lock = 0 then open(Lock, now) else open(Inner, now) }',
         '''join 0 (if (= (. 1 $0) 0) (open 0 10560) (open 1 10560))
            reduce bag (. 0 $0) true''', [2, 1, 3], calendars=[LOCK, INNER],
         plain=lambda: bagof(h.berth for h in BEHIND if (LOCK if h.lock == 0 else INNER).open(10560))),
    Case('e4-count', 'E4', TRUE_WHEN, [ARRIVALS], 'sum{ if open(Lock, a.minute) then 1 else 0 | a <- Arrivals }',
         '''join 0 true
            reduce sum (if (open 0 (. 1 $0)) 1 0) true''', [3], calendars=[LOCK],
         plain=lambda: sum(LOCK.open(a.minute) for a in ARRIVALS)),
    Case('e4-in-a-head', 'E4', 'The answer .. a truth 0 or 1', [ARRIVALS],
         'set{ (open(Lock, a.minute), a.ship) | a <- Arrivals }',
         '''join 0 true
            reduce set (rec (open 0 (. 1 $0)) (. 0 $0)) true''', [5, 0, 1, 0, 4, 1, 2, 1, 3, 1, 5], calendars=[LOCK],
         plain=lambda: setof((LOCK.open(a.minute), a.ship) for a in ARRIVALS)),
    Case('e4-and', 'E4', 'an "and" condition becomes two', [ARRIVALS],
         'bag{ a.ship | a <- Arrivals, open(Lock, a.minute) and not open(Lock, a.minute + 1) }',
         '''join 0 (and (open 0 (. 1 $0)) (not (open 0 (+ (. 1 $0) 1))))
            reduce bag (. 0 $0) true''', [1, 3], calendars=[LOCK],
         plain=lambda: bagof(a.ship for a in ARRIVALS if LOCK.open(a.minute) and not LOCK.open(a.minute + 1))),
    Case('e4-its-generator', 'E4', 'the last generator .. that it mentions', [ARRIVALS, BERTHS],
         'bag{ (a.ship, b.number) | a <- Arrivals, b <- Berths, open(Lock, a.minute), open(Lock, 480) }',
         '''join 0 (and (open 0 (. 1 $0)) (open 0 480))
            join 1 true
            reduce bag (rec (. 0 $0) (. 0 $1)) true''', [6, 2, 1, 2, 2, 3, 1, 3, 2, 5, 1, 5, 2], calendars=[LOCK],
         plain=lambda: bagof((a.ship, b.number) for a in ARRIVALS for b in BERTHS if LOCK.open(a.minute))),
    Case('e4-of-a-max', 'E4', 'Conditions that held a comprehension go to the nest or reduce', [ARRIVALS],
         'bag{ a.ship | a <- Arrivals, open(Lock, max{ l.minute | l <- Arrivals }) }',
         '''join 0 true
            outer 0 true
            nest 1 max (. 1 $1) true
            reduce bag (. 0 $0) (open 0 $1)''', [5, 1, 2, 3, 4, 5], calendars=[LOCK],
         plain=lambda: bagof(a.ship for a in ARRIVALS if LOCK.open(most(l.minute for l in ARRIVALS)))),
    Case('e4-some-in-a-set', 'E4', 'a condition that is a "some" comprehension, directly in set', [BERTHS, ARRIVALS],
         'set{ b.number | b <- Berths, some{ open(Lock, a.minute) | a <- Arrivals, a.ship = b.number } }',
         '''join 0 true
            join 1 (and (= (. 0 $1) (. 0 $0)) (open 0 (. 1 $1)))
            reduce set (. 0 $0) true''', [1, 2], calendars=[LOCK],
         plain=lambda: setof(b.number for b in BERTHS for a in ARRIVALS if a.ship == b.number and LOCK.open(a.minute))),
    Case('e4-some-in-a-bag', 'E4', 'a condition that is a "some" comprehension, directly in set', [BERTHS, ARRIVALS],
         'bag{ b.number | b <- Berths, some{ open(Lock, a.minute) | a <- Arrivals, a.ship = b.number } }',
         '''join 0 true
            outer 1 (= (. 0 $1) (. 0 $0))
            nest 1 some (open 0 (. 1 $1)) true
            reduce bag (. 0 $0) $1''', [1, 2], calendars=[LOCK],
         plain=lambda: bagof(b.number for b in BERTHS
                             if any(LOCK.open(a.minute) for a in ARRIVALS if a.ship == b.number))),
    Case('e4-in-a-minute', 'E4', PRINTS, [], 'some{ open(Lock, if open(Inner, 1440) then 480 else 0) }',
         '''join unit true
            reduce some (open 0 (if (open 1 1440) 480 0)) true''', [1], calendars=[LOCK, INNER],
         plain=lambda: LOCK.open(480 if INNER.open(1440) else 0)),
    Case('e4-unasked', 'E4', 'lent alike to checker, loops and plan', [], 'sum{ 7 }',
         '''join unit true
            reduce sum 7 true''', [7], calendars=[LOCK, INNER, LATE, RAGGED], plain=lambda: 7),
]

LAYOUTS = [
    broken('e4-weekday-7', [Calendar('Weekday7', (7, 0, 1))]),
    broken('e4-no-minute', [Calendar('NoMinute', (5, 480, 480))]),
    broken('e4-backwards', [Calendar('Backwards', (5, 720, 480))]),
    broken('e4-end-1441', [Calendar('End1441', (5, 0, 1441))]),
    broken('e4-first-1440', [Calendar('First1440', (5, 1440, 1440))]),
    broken('e4-second-window', [Calendar('SecondWindow', (5, 0, 1), (7, 0, 1))]),
    broken('e4-33-windows', [Calendar('Windows33', *[(5, n, n + 1) for n in range(33)])]),
    broken('e4-one-said', [Calendar('OneSaid', (5, 0, 1), (5, 0, 1), count=1)]),
    broken('e4-two-said', [Calendar('TwoSaid', (5, 0, 1), count=2)]),
    broken('e4-short', [Calendar('Short', (5, 0, 1), short=1)]),
    broken('e4-no-content', [Calendar('NoContent', short=1)]),
    broken('e4-cut', [Calendar('Cut', (5, 0, 1), cut=1)], says='Its last byte is left off.'),
    broken('e4-kind-20', [Calendar('Kind20', (5, 0, 1), kind=20)]),
    broken('e4-kind-280', [Calendar('Kind280', (5, 0, 1), kind=256 + 24)], says='Its low byte is 24.'),
    broken('e4-fifth', [LOCK] * 5),
    broken('e4-byte-behind', [LOCK] * 4, tail=1, says='It begins a fifth record.'),
    broken('e4-second-calendar', [LOCK, Calendar('Weekday7', (7, 0, 1))], ask='some{ open(Lock, 480) }',
           says='Calendars that are not asked for are judged, too.'),
    broken('e4-after-43', [Calendar('Weekday7', (7, 0, 1))], tables=[ABOVE], refused=43, paper='after all data refusals'),
    broken('e4-before-21', [Calendar('Weekday7', (7, 0, 1))], ask=ones(342), paper='after all data refusals',
           says='4,105 bytes.'),
    broken('e4-before-24', [Calendar('Weekday7', (7, 0, 1))], ask='sum{ x }', paper='after all data refusals'),
    broken('e4-before-42', [Calendar('Weekday7', (7, 0, 1))], ask='some{ open(1, 480) }', paper='after all data refusals'),
]

NOT_THERE = [
    asked('e4-none', 'some{ open(0, 480) }', 42, calendars=()),
    asked('e4-1-of-1', 'some{ open(1, 480) }', 42),
    asked('e4-4', 'some{ open(4, 480) }', 42, calendars=[LOCK] * 4, says='No fifth can be lent.'),
    asked('e4-255', 'some{ open(255, 480) }', 42),
    asked('e4-not-lent-unused', 'sum{ 7 | let u = open(1, 480) }', 42, says='Parts that are never used count.'),
    asked('e4-after-24', 'all{ x | open(1, 480) }', 24),
    asked('e4-after-25', 'sum{ true | open(1, 480) }', 25),
    asked('e4-before-26', 'sum{ s.n | s <- S, open(1, 480) }', 42, tables=[S]),
    asked('e4-26', 'sum{ s.n | s <- S, open(Lock, 480) }', 26, tables=[S]),
    asked('e4-before-28', 'sum{ %s + 1 | open(1, 480) }' % MOST, 42),
    asked('e4-of-a-truth', 'some{ open(Lock, true) }', 25, paper='one number term'),
    asked('e4-of-a-row', 'some{ open(Lock, b) | b <- Berths }', 25, tables=[BERTHS], paper='one number term'),
    asked('e4-sum-of-truths', 'sum{ open(Lock, 480) }', 25, paper='is true when'),
    asked('e4-28', 'some{ open(Lock, %s + 1) }' % MOST, 28, paper='a number in the normal form with bound over 2^62',
          says='An open minute has no bound, its minute has one.'),
    asked('e4-27', 'some{ open(Lock, v8) | let v0 = 1%s }'
          % ''.join(', let v%d = v%d + v%d' % (v + 1, v, v) for v in range(8)), 27,
          paper='a normal form over 512 nodes', says='1 and 1 and 511: an open minute is a node.'),
]

CASES = MEANING + IN_QUESTIONS + LAYOUTS + NOT_THERE

LEFT_OUT = []
