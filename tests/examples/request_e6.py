"""Document 02, request E6: pilotage dues on an answer. Tariffs with their bytes, and dues, by hand."""
from charged import Charged, Tariff
from notation import Table, bagof

TITLE = 'Document 02, E6: pilotage dues on an answer'

SHIPS = Table('Ships', 'bag', 'ship draught', (1, 450), (2, 820), (3, 395), (4, 80), (4, 1180))
LISTED = Table('Listed', 'list', 'ship draught', (2, 100), (1, 101))
BERTHS = Table('Berths', 'bag', 'berth depth length', (1, 90, 120))

PILOTS = Tariff('Pilots', [(400, 1000), (800, 1500), (1200, 2500)], 3000,
                '1d00 1600 03 90010000 e8030000 20030000 dc050000 b0040000 c4090000 b80b0000')
FALLING = Tariff('Falling', [(500, 1000), (1000, 1)], 0, '1500 1600 02 f4010000 e8030000 e8030000 01000000 00000000')
WIDEST = Tariff('Widest', [(2 ** 32 - 1, 10000000)], 10000000, '0d00 1600 01 ffffffff 80969800 80969800')
NO_DEPTH = Tariff('NoDepth', [(0, 77)], 5, '0d00 1600 01 00000000 4d000000 05000000')
LEVEL = Tariff('Level', [(400, 1000), (400, 1500)], 0, '1500 1600 02 90010000 e8030000 90010000 dc050000 00000000')
DEAR = Tariff('Dear', [(400, 10000001)], 0, '0d00 1600 01 90010000 81969800 00000000')
NO_STEP = Tariff('NoStep', [], 3000, '0500 1600 00 b80b0000')

CHARGE = 'the charge is the greater of rate times metres and minimum'
STEP = 'the first step whose upper draught is not below the ship\'s'
METRES = 'the draught divided by 100, rounded up'
OTHER = '45, a question of another type'
OUTSIDE = '46, a draught below 0 or above the last step'
LAYOUT = '44, a tariff outside these ranges or this layout'


def cents(tariff, draught):
    """A charge in plain Python: the second reckoning."""
    rate = next(rate for upper, rate in tariff.steps if upper >= draught)
    return max(rate * -(-draught // 100), tariff.minimum)


def ships(tariff, rows):
    return lambda: bagof((ship, cents(tariff, draught)) for ship, draught in rows)


def one(name, paper, tariff, ship, draught, gives, says=''):
    """A ship without a table."""
    plain = ships(tariff, [(ship, draught)])
    return Charged(name, paper, tariff, [], 'bag{ (%d, %d) }' % (ship, draught), gives, plain=plain, says=says)


CASES = [
    Charged('dues', CHARGE, PILOTS, [SHIPS], 'bag{ (s.ship, s.draught) | s <- Ships }',
            [5, 1, 7500, 2, 22500, 3, 4000, 4, 3000, 4, 30000], plain=ships(PILOTS, SHIPS),
            says='4.5 m are 5 begun, 5 x 1500; 8.2 m: 9 x 2500; 3.95 m: 4 x 1000; 0.8 m: 1 x 1000, below 3000; 11.8 m: 12 x 2500'),
    Charged('dues-rows', 'records (ship, draught), all numbers', PILOTS, [SHIPS], 'bag{ s | s <- Ships, s.draught < 400 }',
            [2, 3, 4000, 4, 3000], plain=ships(PILOTS, [row for row in SHIPS if row[1] < 400]), says='A row of two columns is such a record'),
    Charged('dues-list', 'records (ship, draught), all numbers', PILOTS, [LISTED], 'bag{ s | s <- Listed }', [2, 1, 3000, 2, 3000],
            plain=ships(PILOTS, LISTED), says='2 x 1000 and 1 x 1000, both below 3000'),
    Charged('dues-none', 'writes the bag (ship, cents)', PILOTS, [SHIPS], 'bag{ s | s <- Ships, s.draught < 0 }', [0], plain=ships(PILOTS, [])),
    Charged('dues-falling', 'writes the bag (ship, cents)', FALLING, [SHIPS], 'bag{ (1, s.draught) | s <- Ships, s.draught < 900 }',
            [4, 1, 9, 1, 1000, 1, 4000, 1, 5000], plain=ships(FALLING, [(1, draught) for _, draught in SHIPS if draught < 900]),
            says='820 cm: 9 x 1, the deepest and the least: the bag is ascending by cents'),
    one('dues-upper', STEP, PILOTS, 5, 400, [1, 5, 4000]),
    one('dues-above-upper', STEP, PILOTS, 5, 401, [1, 5, 7500], 'The second step, and a fifth metre begun'),
    one('dues-whole-metres', METRES, PILOTS, 5, 500, [1, 5, 7500]),
    one('dues-draught-0', METRES, PILOTS, 5, 0, [1, 5, 3000], 'No metre is begun: the minimum'),
    one('dues-last', STEP, PILOTS, 5, 1200, [1, 5, 30000]),
    one('dues-no-depth', STEP, NO_DEPTH, 5, 0, [1, 5, 5]),
    Charged('dues-widest', 'each number four unsigned bytes', WIDEST, [], 'bag{ (1, 2147483647 + 2147483647 + 1) }', [1, 1, 429496730000000],
            plain=ships(WIDEST, [(1, 2 ** 32 - 1)]), says='42949673 x 10000000'),
    Charged('dues-above-last', OUTSIDE, PILOTS, [], 'bag{ (5, 1201) }', refused=46),
    Charged('dues-below-0', OUTSIDE, PILOTS, [], 'bag{ (5, 0 - 1) }', refused=46),
    Charged('dues-one-above', OUTSIDE, FALLING, [SHIPS], 'bag{ s | s <- Ships }', refused=46, says='Ship 4 with 1180 cm'),
    Charged('dues-sum', OTHER, PILOTS, [SHIPS], 'sum{ s.draught | s <- Ships }', refused=45),
    Charged('dues-set', OTHER, PILOTS, [SHIPS], 'set{ s | s <- Ships }', refused=45),
    Charged('dues-three-columns', OTHER, PILOTS, [BERTHS], 'bag{ b | b <- Berths, b.depth < 0 }', refused=45, says='Whether there is a row does not matter'),
    Charged('dues-nested', OTHER, PILOTS, [], 'bag{ ((5, 5), 400) }', refused=45),
    Charged('dues-level', LAYOUT, LEVEL, [], 'bag{ (5, 400) }', refused=44),
    Charged('dues-dear', LAYOUT, DEAR, [], 'bag{ (5, 400) }', refused=44),
    Charged('dues-no-step', LAYOUT, NO_STEP, [], 'bag{ (5, 400) }', refused=44),
]
