#!/usr/bin/env python3
"""Writes what bench/outages.cpp measures, a line for each question: its name, its tables, the question, in
hexadecimal, and how many subsets of the first table's rows give true, counted by plain Python."""
import random
import sys
from itertools import combinations
from pathlib import Path

sys.dont_write_bytecode = True
sys.path.insert(0, str(Path(__file__).resolve().parent.parent / 'tests' / 'examples'))

from notation import Table, packed, question  # noqa: E402

chosen = random.Random('outages')
TUGS = Table('Tugs', 'bag', 'pull harbour', *[(chosen.randrange(30, 90), chosen.randrange(3)) for tug in range(12)])
SHIPS = Table('Ships', 'bag', 'need harbour', *[(chosen.randrange(25, 60), chosen.randrange(3)) for ship in range(20)])

QUESTIONS = [
    ('a tug for each of 20 ships', 'all{ some{ s.need < t.pull | t <- Tugs, t.harbour = s.harbour } | s <- Ships }',
     lambda tugs: all(any(ship.need < tug.pull and tug.harbour == ship.harbour for tug in tugs) for ship in SHIPS)),
    ('two tugs that pull 100', 'some{ 99 < t.pull + u.pull | t <- Tugs, u <- Tugs, t.harbour < u.harbour }',
     lambda tugs: any(99 < tug.pull + other.pull and tug.harbour < other.harbour for tug in tugs for other in tugs)),
]

for name, text, holds in QUESTIONS:
    subsets = [kept for count in range(len(TUGS.rows) + 1) for kept in combinations(TUGS.rows, count)]
    stored = [TUGS, SHIPS]
    print(name, packed(stored).hex(), question(text, stored, []).hex(), sum(map(holds, subsets)), sep='\t')
