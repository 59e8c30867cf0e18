//! Tariffs (document 02, E6), whole and broken, and questions about ships and their draughts, most of them near
//! a tariff's steps.

use super::nodes::*;
use super::random::Random;
use super::typed::{declared, random_cell};

/// "one byte of steps (1 to 16)".
const MOST_STEPS: usize = 16;

/// "Rates and minimum are at most 10,000,000."
const MOST_CENTS: u32 = 10_000_000;

/// A tariff to be written.
#[derive(Clone, Debug)]
pub struct Tariff {
    /// Upper draught and rate of each.
    steps: Vec<(u32, u32)>,
    minimum: u32,
}

impl Tariff {
    pub fn random(random: &mut Random) -> Tariff {
        let count = random.one_of(&[1, 1, 2, 2, 3, 3, 4, 6, 15, MOST_STEPS], 3);
        let mut upper: u32 = random.one_of(&[0, 1, 2, 99, 100, 400, 800], 400);
        let mut steps = Vec::new();
        for _ in 0..count {
            steps.push((upper, cents(random)));
            let wider = random.between(1, 1 << 27) as u32;
            let higher = random.one_of(&[1, 1, 2, 99, 100, 101, 400, wider], 100);
            upper = upper.saturating_add(higher);
        }
        // Steps that hold every draught, or all but the deepest that a cell or two can be.
        if random.chance(40) {
            let last = random.one_of(&[u32::MAX, u32::MAX, u32::MAX - 1, 1 << 31], u32::MAX);
            let (upper, rate) = steps[count - 1];
            steps[count - 1] = (upper.max(last), rate);
        }
        Tariff {
            steps,
            minimum: cents(random),
        }
    }

    fn content(&self) -> Vec<u8> {
        let mut content = vec![self.steps.len() as u8];
        for (upper, rate) in &self.steps {
            content.extend(upper.to_le_bytes());
            content.extend(rate.to_le_bytes());
        }
        content.extend(self.minimum.to_le_bytes());
        content
    }

    pub fn bytes(&self) -> Vec<u8> {
        record_bytes(TARIFF, &self.content())
    }

    /// A draught about which a step or a metre ends, where a cell can have it.
    fn edge(&self, random: &mut Random) -> i32 {
        let (upper, _) = random.one_of(&self.steps, (0, 0));
        let metre = 100 * random.below(14) as u32;
        let near = random.one_of(&[upper, upper, metre], 0);
        let beside = random.one_of(&[0, 0, 1, -1], 0);
        i32::try_from(i64::from(near) + beside).unwrap_or(i32::MAX)
    }

    /// A draught that some step holds.
    fn within(&self, random: &mut Random) -> i32 {
        let last = self.steps.last().map_or(0, |(upper, _)| *upper);
        let last = i32::try_from(last).unwrap_or(i32::MAX);
        self.edge(random).clamp(0, last)
    }
}

fn cents(random: &mut Random) -> u32 {
    let any = random.between(0, MOST_CENTS as usize) as u32;
    random.one_of(&[0, 1, 7, 1000, 1500, 2500, MOST_CENTS, any, any], 0)
}

/// "44, a tariff outside these ranges or this layout".
pub fn broken_tariff(random: &mut Random, tariff: &Tariff) -> Vec<u8> {
    let mut broken = tariff.clone();
    let at = random.below(broken.steps.len());
    let beyond = random.one_of(&[MOST_CENTS + 1, 1 << 31, u32::MAX], u32::MAX);
    match random.below(6) {
        0 => broken.steps[at].1 = beyond,
        1 => broken.minimum = beyond,
        2 => {
            // The same upper draught again, or one below it.
            let (upper, _) = broken.steps[at];
            let lower = upper.saturating_sub(random.below(3) as u32);
            broken.steps.insert(at + 1, (lower, cents(random)));
        }
        3 => {
            let count = random.one_of(&[0, MOST_STEPS + 1, MOST_STEPS + 2, 255], 0);
            broken.steps = (0..count).map(|step| (step as u32, 1)).collect();
        }
        _ => return broken_layout(random, tariff),
    }
    broken.bytes()
}

fn broken_layout(random: &mut Random, tariff: &Tariff) -> Vec<u8> {
    let (mut content, mut bytes) = (tariff.content(), tariff.bytes());
    match random.below(7) {
        0 => {
            let count = content[0];
            content[0] = random.one_of(&[0, count - 1, count + 1, 17, 255], 0);
            return record_bytes(TARIFF, &content);
        }
        1 => {
            content.truncate(random.below(content.len()));
            return record_bytes(TARIFF, &content);
        }
        2 => {
            content.extend((0..random.between(1, 8)).map(|_| 0));
            return record_bytes(TARIFF, &content);
        }
        3 => return record_bytes(random.one_of(&[0, 20, 21, 23, 24, 278], 20), &content),
        4 => bytes.truncate(random.below(bytes.len())),
        5 => bytes.extend((0..random.between(1, 40)).map(|_| random.byte())),
        _ => bytes[0] = bytes[0].wrapping_add(random.one_of(&[1, 4, 8, 255], 1)),
    }
    bytes
}

/// A question about ships and draughts; now and then one of another type.
pub fn random_ships(random: &mut Random, tariff: &Tariff) -> (Vec<Stored>, Node) {
    let tables: Vec<Stored> = (0..2).map(|_| random_fleet(random, tariff)).collect();
    let question = Asked { random, tariff }.question(&tables);
    (tables, question)
}

/// Few ships; draughts that the tariff's steps hold, in some tables any.
fn random_fleet(random: &mut Random, tariff: &Tariff) -> Stored {
    let count = random.one_of(&[0, 1, 2, 3, 3, 4, 6, 20], 3);
    let any = random.chance(25);
    let mut row = |_| {
        let ship = match random.chance(5) {
            true => random_cell(random),
            false => random.one_of(&[1, 1, 2, 3, -4], 1),
        };
        let draught = match any {
            true if random.chance(30) => random_cell(random),
            true => tariff.edge(random),
            false => tariff.within(random),
        };
        vec![ship, draught]
    };
    let rows = (0..count).map(&mut row).collect();
    let collection = random.one_of(&[LIST, LIST, BAG, BAG, BAG, BAG, BAG, SET], BAG);
    declared(random, Stored::wide(collection, 2, rows))
}

struct Asked<'a> {
    random: &'a mut Random,
    tariff: &'a Tariff,
}

/// The names of a ship, of another one, and of a row of an inner question.
const SHIP: u16 = 0;
const OTHER: u16 = 1;
const INNER: u16 = 2;

impl Asked<'_> {
    fn question(&mut self, tables: &[Stored]) -> Node {
        let mut qualifiers = Vec::new();
        let ranges = self.random.weighted(&[10, 70, 20]);
        let from = self.random.below(tables.len()) as u8;
        for (name, number) in [(SHIP, from), (OTHER, 1 - from)].into_iter().take(ranges) {
            let source = self.source(number);
            qualifiers.push(generator(name, source));
        }
        if self.random.chance(40) {
            let met = self.truth(ranges);
            qualifiers.push(condition(met));
        }
        let draught = self.draught(ranges);
        let ship = match ranges {
            0 => number(random_cell(self.random)),
            _ => field(0, name(SHIP)),
        };
        let head = match self.random.below(4) {
            // A row of two columns is a ship with its draught.
            0 if ranges > 0 => name(SHIP),
            _ => record(vec![ship, draught]),
        };
        match self.random.chance(12) {
            true => self.of_another_type(qualifiers, head),
            false => comprehension(BAG, qualifiers, head),
        }
    }

    /// A table, or all its rows through a question of their own.
    fn source(&mut self, number: u8) -> Node {
        if self.random.chance(75) {
            return table(number);
        }
        let own = 10 + u16::from(number);
        let monoid = self.random.one_of(&[BAG, BAG, BAG, LIST], BAG);
        comprehension(monoid, vec![generator(own, table(number))], name(own))
    }

    /// A constant, a cell, one of them changed, or the deepest that another table has of the ship.
    fn draught(&mut self, ranges: usize) -> Node {
        let constant = number(self.tariff.within(self.random));
        if ranges == 0 {
            return match self.random.below(4) {
                0 => two(PLUS, constant, number(self.tariff.edge(self.random))),
                1 => two(TIMES, constant, number(random_cell(self.random))),
                _ => constant,
            };
        }
        let cell = field(1, name(SHIP));
        match self.random.below(10) {
            0 => constant,
            1 => two(PLUS, cell, number(random_cell(self.random))),
            2 => two(MINUS, cell, number(random_cell(self.random))),
            3 => two(TIMES, cell, constant),
            4 => choice(self.truth(ranges), cell, constant),
            5 | 6 => self.deepest(),
            _ => cell,
        }
    }

    fn deepest(&mut self) -> Node {
        let monoid = self.random.one_of(&[MAX, MIN, SUM, SUM], MAX);
        let same = two(EQUAL, field(0, name(INNER)), field(0, name(SHIP)));
        let from = self.random.below(2) as u8;
        let ranged = vec![generator(INNER, table(from)), condition(same)];
        let cell = |column: u8| field(column, name(INNER));
        let head = match monoid {
            SUM if self.random.chance(50) => two(TIMES, cell(0), cell(1)),
            _ => cell(1),
        };
        comprehension(monoid, ranged, head)
    }

    fn truth(&mut self, ranges: usize) -> Node {
        let limit = number(self.tariff.edge(self.random));
        let kind = self.random.one_of(&[LESS, LESS, EQUAL], LESS);
        match ranges {
            0 => truth(self.random.chance(80)),
            1 => two(kind, number(-1), field(1, name(SHIP))),
            _ if self.random.chance(50) => two(EQUAL, field(0, name(SHIP)), field(0, name(OTHER))),
            _ => two(kind, field(1, name(SHIP)), limit),
        }
    }

    /// "45, a question of another type": another monoid, or another head.
    fn of_another_type(&mut self, qualifiers: Vec<Node>, head: Node) -> Node {
        let one = || number(1);
        let other = match self.random.below(8) {
            0 => return comprehension(SUM, qualifiers, one()),
            1 => return comprehension(SOME, qualifiers, truth(true)),
            2 => return comprehension(LIST, qualifiers, head),
            3 => return comprehension(SET, qualifiers, head),
            4 => record(vec![one()]),
            5 => record(vec![one(), one(), one()]),
            6 => record(vec![record(vec![one()]), one()]),
            _ => record(vec![one(), truth(true)]),
        };
        comprehension(BAG, qualifiers, other)
    }
}
