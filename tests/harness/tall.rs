//! Tall tables: by column (document 02, E10) a cell is the sum of all differences above it, so rows far down
//! are reached from the one before, from one further up and anew from the first, in loops that stand in
//! one another, end early or begin again.

use super::by_column::MOST_ROWS;
use super::nodes::*;
use super::random::Random;
use super::typed::{declared, random_cell};

/// Rows around powers of two.
const ROWS: [usize; 20] = [
    7, 8, 9, 15, 16, 17, 31, 32, 33, 63, 64, 65, 127, 128, 129, 255, 257, 500, 1000, MOST_ROWS,
];

/// Pairs of rows of both tables.
const MOST_PAIRS: usize = 2_000;

/// Names of the outer and of the inner row.
const OUTER: u16 = 0;
const INNER: u16 = 1;

/// A question over a tall table and one that is as tall as their pairs allow.
pub fn random_tall(random: &mut Random) -> (Vec<Stored>, Node) {
    let collection = random.one_of(&[LIST, LIST, BAG, BAG, SET], BAG);
    let rows = random.one_of(&ROWS, 16);
    let most = (MOST_PAIRS / rows).max(1);
    let others = random.one_of(&ROWS, 16).min(random.between(1, most));
    let columns = random.between(2, 4);
    let tables = [rows, others].map(|count| tall_table(random, collection, columns, count));
    let mut asked = Asked {
        random,
        collection,
        columns,
    };
    let question = asked.question();
    (tables.to_vec(), question)
}

/// A key from a few in column 0; in the other columns cells of any size, or the row's place in some way.
fn tall_table(random: &mut Random, collection: u8, columns: usize, count: usize) -> Stored {
    let keys = random.between(8, 40);
    let falling = random.chance(50);
    let mut cell = |place: usize, column: usize| match column {
        0 => i32::try_from(random.below(keys)).unwrap_or(0),
        1 if falling => -(place as i32),
        1 => random.next() as i32,
        _ => random_cell(random),
    };
    let mut row = |place: usize| (0..columns).map(|column| cell(place, column)).collect();
    let rows = (0..count).map(&mut row).collect();
    declared(random, Stored::wide(collection, columns, rows))
}

struct Asked<'a> {
    random: &'a mut Random,
    /// Of both tables.
    collection: u8,
    columns: usize,
}

impl Asked<'_> {
    /// Over one table, over pairs, or with a comprehension over one inside one over the other.
    fn question(&mut self) -> Node {
        let monoid = self.monoid();
        let (first, second) = self.random.one_of(&[(0, 1), (1, 0)], (0, 1));
        let mut qualifiers = vec![generator(OUTER, table(first))];
        let inner = match self.random.below(4) {
            0 => {
                let row = self.random.chance(70).then(|| self.tested());
                qualifiers.extend(row);
                None
            }
            1 => {
                qualifiers.push(generator(INNER, table(second)));
                let kind = self.random.one_of(&[EQUAL, EQUAL, EQUAL, LESS], EQUAL);
                qualifiers.push(condition(two(kind, key(OUTER), key(INNER))));
                Some(self.value(INNER))
            }
            2 => {
                let found = self.inner(second, SOME);
                qualifiers.push(condition(found));
                None
            }
            _ => {
                let monoid = self.random.one_of(&[MAX, MIN], MAX);
                Some(self.inner(second, monoid))
            }
        };
        let head = self.head(monoid, inner);
        comprehension(monoid, qualifiers, head)
    }

    /// A monoid that may have generators over these tables; of pairs it is no list of all of them.
    fn monoid(&mut self) -> u8 {
        match self.collection {
            LIST => self
                .random
                .one_of(&[LIST, LIST, BAG, SET, SUM, MAX, SOME], SUM),
            BAG => self.random.one_of(&[BAG, BAG, SET, SUM, MIN, ALL], SUM),
            _ => self.random.one_of(&[SET, SET, MAX, MIN, SOME, ALL], SET),
        }
    }

    fn value(&mut self, row: u16) -> Node {
        let column = self.random.between(1, self.columns - 1);
        field(u8::try_from(column).unwrap_or(1), name(row))
    }

    /// A condition on the outer row's cells.
    fn tested(&mut self) -> Node {
        let number = number(i32::try_from(self.random.below(40)).unwrap_or(0));
        let test = match self.random.below(3) {
            0 => two(EQUAL, key(OUTER), number),
            1 => two(LESS, key(OUTER), number),
            _ => two(LESS, self.value(OUTER), key(OUTER)),
        };
        condition(test)
    }

    /// Over the other table's rows of the same key.
    fn inner(&mut self, other: u8, monoid: u8) -> Node {
        let same = two(EQUAL, key(INNER), key(OUTER));
        let range = generator(INNER, table(other));
        match monoid {
            SOME if self.random.chance(50) => comprehension(SOME, vec![range], same),
            SOME => {
                let head = two(LESS, self.value(INNER), self.value(OUTER));
                comprehension(SOME, vec![range, condition(same)], head)
            }
            _ => {
                let monoid = match self.collection {
                    SET => monoid,
                    _ => self.random.one_of(&[SUM, SUM, monoid], SUM),
                };
                let head = self.value(INNER);
                comprehension(monoid, vec![range, condition(same)], head)
            }
        }
    }

    /// A head of the monoid, of the outer row and what came out of the inner one.
    fn head(&mut self, monoid: u8, inner: Option<Node>) -> Node {
        let own = self.value(OUTER);
        match (monoid, inner) {
            (SUM | MAX | MIN, None) => own,
            (SUM | MAX | MIN, Some(inner)) => {
                let kind = self.random.one_of(&[PLUS, MINUS], PLUS);
                two(kind, own, inner)
            }
            (SOME | ALL, None) => two(LESS, own, number(1 << 30)),
            (SOME | ALL, Some(inner)) => two(LESS, own, inner),
            (_, None) => match self.random.below(3) {
                0 => name(OUTER),
                1 => own,
                _ => record(vec![own, key(OUTER)]),
            },
            (_, Some(inner)) => record(vec![key(OUTER), inner]),
        }
    }
}

fn key(row: u16) -> Node {
    field(0, name(row))
}
