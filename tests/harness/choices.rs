//! Choices where their rules show: a comprehension in each of the three terms, conditions whose terms
//! mention other generators, "and" and "some" in them, and groups that are empty for the term taken.

use super::extremes::{height, key, random_heights};
use super::nodes::*;
use super::random::Random;

/// A question with choices in its conditions or its head, over rows of a key and a height.
pub fn random_choice(random: &mut Random) -> (Vec<Stored>, Node) {
    let tables: Vec<Stored> = (0..3).map(|_| random_heights(random)).collect();
    let mut asked = Asked {
        random,
        tables: &tables,
        rows: Vec::new(),
        next: 0,
    };
    let question = asked.question();
    (tables, question)
}

/// What a term is.
#[derive(Clone, Copy, PartialEq, Eq)]
enum Of {
    Number,
    Truth,
}

struct Asked<'a> {
    random: &'a mut Random,
    tables: &'a [Stored],
    /// The names that hold: each is a row.
    rows: Vec<u16>,
    /// The next name.
    next: u16,
}

impl Asked<'_> {
    fn question(&mut self) -> Node {
        let mut qualifiers = Vec::new();
        let mut kind = LIST;
        for _ in 0..self.random.one_of(&[1, 1, 2, 2, 3], 1) {
            let (own, range) = self.range();
            qualifiers.push(range);
            kind = kind.max(own);
        }
        for _ in 0..self.random.weighted(&[40, 45, 15]) {
            let more = self.random.between(0, 2);
            qualifiers.push(condition(self.choice(Of::Truth, more)));
        }
        let monoid = match kind {
            LIST => self.random.one_of(&[LIST, BAG, SET, SUM, MAX, SOME], LIST),
            BAG => self.random.one_of(&[BAG, SET, SUM, MIN, ALL], BAG),
            _ => self.random.one_of(&[SET, SET, MAX, MIN, SOME, ALL], SET),
        };
        let more = self.random.between(1, 2);
        let head = match monoid {
            SUM | MAX | MIN => self.choice(Of::Number, more),
            SOME | ALL => self.choice(Of::Truth, more),
            _ => {
                let first = self.choice(Of::Number, more);
                record(vec![first, self.term(Of::Truth, 1), self.cell()])
            }
        };
        comprehension(monoid, qualifiers, head)
    }

    /// A generator over one of the tables, and its collection; the name holds from here on.
    fn range(&mut self) -> (u8, Node) {
        let place = self.random.below(self.tables.len());
        let own = self.next;
        self.next = own.saturating_add(1);
        self.rows.push(own);
        let stored = table(u8::try_from(place).unwrap_or(0));
        (self.tables[place].collection, generator(own, stored))
    }

    /// A choice, with so many levels more in its terms.
    fn choice(&mut self, of: Of, more: usize) -> Node {
        let truth = self.term(Of::Truth, more);
        let first = self.term(of, more);
        choice(truth, first, self.term(of, more))
    }

    fn term(&mut self, of: Of, more: usize) -> Node {
        let Some(more) = more.checked_sub(1) else {
            return self.small(of);
        };
        match (self.random.below(6), of) {
            (0, _) => self.choice(of, more),
            (1..=3, _) => self.inner(of, more),
            (4, Of::Number) => {
                let kind = self.random.one_of(&[PLUS, MINUS], MINUS);
                two(kind, self.term(of, more), self.cell())
            }
            (4, Of::Truth) => {
                let kind = self.random.one_of(&[AND, AND, OR], AND);
                let left = self.term(of, more);
                two(kind, left, self.term(of, more))
            }
            _ => self.small(of),
        }
    }

    /// A comprehension over the rows of a key, which may be none.
    fn inner(&mut self, of: Of, more: usize) -> Node {
        let around = self.row();
        let outside = self.rows.len();
        let (kind, range) = self.range();
        let own = self.row_of(outside);
        let mut qualifiers = vec![range];
        if self.random.chance(75) {
            let tie = self.random.one_of(&[EQUAL, EQUAL, LESS], EQUAL);
            qualifiers.push(condition(two(tie, key(own), key(around))));
        }
        if self.random.chance(20) {
            qualifiers.push(condition(self.choice(Of::Truth, 0)));
        }
        let monoid = match (of, kind) {
            (Of::Truth, _) => self.random.one_of(&[SOME, SOME, ALL], SOME),
            (_, SET) => self.random.one_of(&[MAX, MIN], MAX),
            _ => self.random.one_of(&[SUM, SUM, MAX, MIN], SUM),
        };
        let head = self.term(of, more);
        self.rows.truncate(outside);
        comprehension(monoid, qualifiers, head)
    }

    /// A term without a comprehension.
    fn small(&mut self, of: Of) -> Node {
        match (of, self.random.below(4)) {
            (Of::Number, 0) => number(self.random.one_of(&[-7, 0, 1, 7], 7)),
            (Of::Number, _) => self.cell(),
            (Of::Truth, 0) => truth(self.random.chance(50)),
            (Of::Truth, 1) => two(EQUAL, key(self.row()), key(self.row())),
            (Of::Truth, _) => {
                let kind = self.random.one_of(&[LESS, LESS, EQUAL], LESS);
                let limit = number(self.random.one_of(&[-1, 0, 1, 2], 0));
                two(kind, self.cell(), limit)
            }
        }
    }

    /// A cell of any row that holds.
    fn cell(&mut self) -> Node {
        let of = self
            .random
            .one_of(&[key, height, height], height as fn(u16) -> Node);
        of(self.row())
    }

    fn row(&mut self) -> u16 {
        self.random.one_of(&self.rows, 0)
    }

    fn row_of(&self, position: usize) -> u16 {
        self.rows.get(position).copied().unwrap_or(0)
    }
}
