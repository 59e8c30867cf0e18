//! Max and min where their rule shows: heights of one sign, groups that are often empty, rows that
//! are padded beside others, and the 0 of an inner one over nothing among the heads.

use super::nodes::*;
use super::random::Random;
use super::typed::{cell_of_sign, declared};

/// A question about greatest and least heights, over rows of a key and a height.
pub fn random_extreme(random: &mut Random) -> (Vec<Stored>, Node) {
    let tables: Vec<Stored> = (0..3).map(|_| random_heights(random)).collect();
    let mut asked = Asked {
        random,
        tables: &tables,
        next: 0,
    };
    let question = asked.question();
    (tables, question)
}

/// Few keys, so that some are shared and some are alone; mostly heights of one sign.
pub fn random_heights(random: &mut Random) -> Stored {
    let sign = random.one_of(&[-1, -1, -1, 1, 1, 0], -1);
    let count = random.one_of(&[0, 1, 2, 3, 3, 4, 4, 5], 3);
    let mut row = |_| {
        let key = random.one_of(&[1, 1, 2, 2, 3], 1);
        vec![key, cell_of_sign(random, sign)]
    };
    let rows = (0..count).map(&mut row).collect();
    let collection = random.one_of(&[LIST, LIST, BAG, SET], BAG);
    declared(random, Stored::wide(collection, 2, rows))
}

struct Asked<'a> {
    random: &'a mut Random,
    tables: &'a [Stored],
    /// The next name.
    next: u16,
}

impl Asked<'_> {
    fn question(&mut self) -> Node {
        if self.random.chance(40) {
            return self.extreme(None, 2);
        }
        let (kind, source) = self.source();
        let own = self.fresh();
        let mut qualifiers = vec![generator(own, source)];
        let monoid = match kind {
            LIST => self.random.one_of(&[LIST, BAG, SET, SUM], LIST),
            BAG => self.random.one_of(&[BAG, SET, SUM], BAG),
            _ => SET,
        };
        let first = self.extreme(Some(own), 1);
        let head = match (self.random.below(3), monoid) {
            (0, _) => {
                let kind = self.random.one_of(&[EQUAL, LESS], EQUAL);
                qualifiers.push(condition(two(kind, first, height(own))));
                height(own)
            }
            (1, _) | (_, SUM) => first,
            _ => record(vec![first, self.extreme(Some(own), 1)]),
        };
        comprehension(monoid, qualifiers, head)
    }

    /// A max or min, about the row of a name where there is one, with so many more inside.
    fn extreme(&mut self, around: Option<u16>, more: usize) -> Node {
        let monoid = self.random.one_of(&[MAX, MIN], MAX);
        if self.random.chance(10) {
            let met = condition(truth(self.random.chance(70)));
            let head = self.head(around, more);
            return comprehension(monoid, vec![met], head);
        }
        let mut qualifiers = self.rows_of_key(around);
        let mut own = self.next.saturating_sub(1);
        if self.random.chance(30) {
            qualifiers.extend(self.rows_of_key(Some(own)));
            // The row before may have no other beside it, and is padded then.
            own = self.random.one_of(&[own, self.next.saturating_sub(1)], own);
        }
        if self.random.chance(15) {
            let beside = self.rows_of_key(Some(own));
            qualifiers.push(condition(comprehension(SOME, beside, truth(true))));
        }
        if self.random.chance(20) {
            let limit = number(self.random.one_of(&[-1, 0, 1, 3], 0));
            qualifiers.push(condition(two(LESS, height(own), limit)));
        }
        let head = self.head(Some(own), more);
        comprehension(monoid, qualifiers, head)
    }

    /// A generator, and mostly a condition that ties its key to that of the row around it. Its name is
    /// the last one given.
    fn rows_of_key(&mut self, around: Option<u16>) -> Vec<Node> {
        let (_, source) = self.source();
        let own = self.fresh();
        let range = generator(own, source);
        match around {
            Some(around) if self.random.chance(70) => {
                let kind = self.random.one_of(&[EQUAL, EQUAL, LESS], EQUAL);
                vec![range, condition(two(kind, key(own), key(around)))]
            }
            _ => vec![range],
        }
    }

    /// A table or its own rows again, by a comprehension that may keep none.
    fn source(&mut self) -> (u8, Node) {
        let place = self.random.below(self.tables.len());
        let kind = self.tables[place].collection;
        let stored = table(u8::try_from(place).unwrap_or(0));
        if self.random.chance(75) {
            return (kind, stored);
        }
        let own = self.fresh();
        let limit = number(self.random.one_of(&[1, 2, 3, 4], 2));
        let kept = condition(two(LESS, key(own), limit));
        let rows = comprehension(kind, vec![generator(own, stored), kept], name(own));
        (kind, rows)
    }

    fn head(&mut self, around: Option<u16>, more: usize) -> Node {
        if more > 0 && self.random.chance(40) {
            return self.extreme(around, more.saturating_sub(1));
        }
        let cell = around.map_or_else(|| number(self.random.one_of(&[-3, 3], 3)), height);
        match self.random.below(4) {
            0 => two(MINUS, number(0), cell),
            1 => two(MINUS, cell, number(9)),
            _ => cell,
        }
    }

    fn fresh(&mut self) -> u16 {
        self.next = self.next.saturating_add(1);
        self.next.saturating_sub(1)
    }
}

pub fn key(own: u16) -> Node {
    field(0, name(own))
}

pub fn height(own: u16) -> Node {
    field(1, name(own))
}
