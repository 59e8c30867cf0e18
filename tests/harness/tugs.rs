//! Questions about what is left where rows of a table are out (document 02, E12): tugs of up to 13 rows, and
//! whether those that are there are enough.

use super::nodes::*;
use super::random::Random;
use super::typed::{declared, random_cell};

/// A question that is true or false, over tugs and over berths.
pub fn random_tugs(random: &mut Random) -> (Vec<Stored>, Node) {
    let tables = vec![random_fleet(random), random_berths(random)];
    let question = Asked { random, next: 0 }.question();
    (tables, question)
}

/// A key from a few and a pull; some rows are equal. One of 13 rows has too many.
fn random_fleet(random: &mut Random) -> Stored {
    let count = random.one_of(
        &[0, 1, 1, 2, 2, 3, 3, 3, 4, 4, 5, 6, 7, 8, 9, 11, 12, 12, 13],
        3,
    );
    let mut row = |_| {
        vec![
            random.between(1, 3) as i32,
            10 * random.between(1, 4) as i32,
        ]
    };
    let rows = (0..count).map(&mut row).collect();
    let collection = random.one_of(&[LIST, BAG, BAG, SET, SET], BAG);
    declared(random, Stored::wide(collection, 2, rows))
}

fn random_berths(random: &mut Random) -> Stored {
    let count = random.one_of(&[0, 1, 2, 2, 3], 2);
    let mut row = |_| vec![random.between(1, 3) as i32, random_cell(random)];
    let rows = (0..count).map(&mut row).collect();
    let collection = random.one_of(&[LIST, BAG, SET], BAG);
    declared(random, Stored::wide(collection, 2, rows))
}

/// The tables' places.
const TUGS: u8 = 0;
const BERTHS: u8 = 1;

struct Asked<'a> {
    random: &'a mut Random,
    /// The next name.
    next: u16,
}

impl Asked<'_> {
    fn question(&mut self) -> Node {
        let monoid = self.random.one_of(&[SOME, ALL], ALL);
        match self.random.below(5) {
            // No generator, or one over what cannot be out.
            0 => comprehension(monoid, Vec::new(), self.truth(None)),
            1 => {
                let own = self.fresh();
                let head = self.truth(Some(own));
                comprehension(monoid, vec![generator(own, table(BERTHS))], head)
            }
            2 => {
                let own = self.fresh();
                let met = condition(self.truth(Some(own)));
                let head = self.truth(Some(own));
                comprehension(monoid, vec![generator(own, table(TUGS)), met], head)
            }
            // The table twice.
            3 => {
                let (own, other) = (self.fresh(), self.fresh());
                let ranges = vec![generator(own, table(TUGS)), generator(other, table(TUGS))];
                let kind = self.random.one_of(&[EQUAL, LESS], EQUAL);
                let same = two(kind, field(1, name(own)), field(1, name(other)));
                comprehension(monoid, ranges, same)
            }
            _ => {
                let own = self.fresh();
                let head = self.truth(Some(own));
                comprehension(monoid, vec![generator(own, table(TUGS))], head)
            }
        }
    }

    fn fresh(&mut self) -> u16 {
        self.next += 1;
        self.next
    }

    /// Something about the tugs that are there, and about a row where there is one.
    fn truth(&mut self, row: Option<u16>) -> Node {
        match self.random.below(8) {
            0 => not(self.truth(row)),
            1 => {
                let kind = self.random.one_of(&[AND, OR], AND);
                two(kind, self.truth(row), self.truth(row))
            }
            2 => choice(self.truth(row), self.truth(row), truth(false)),
            3 | 4 => self.served(row),
            5 => match row {
                Some(row) => two(LESS, number(15), field(1, name(row))),
                None => truth(self.random.chance(50)),
            },
            _ => two(
                LESS,
                number(10 * self.random.below(12) as i32),
                self.pull(row),
            ),
        }
    }

    /// Whether a tug has the row's key, or a certain one.
    fn served(&mut self, row: Option<u16>) -> Node {
        let own = self.fresh();
        let key = self.key(row);
        let same = two(EQUAL, field(0, name(own)), key);
        comprehension(SOME, vec![generator(own, table(TUGS))], same)
    }

    /// The greatest pull of tugs with that key. (A sum may not range over a set.)
    fn pull(&mut self, row: Option<u16>) -> Node {
        let own = self.fresh();
        let monoid = self.random.one_of(&[MAX, MAX, MIN, SUM, SUM], MAX);
        let mut qualifiers = vec![generator(own, table(TUGS))];
        if self.random.chance(50) {
            let key = self.key(row);
            qualifiers.push(condition(two(EQUAL, field(0, name(own)), key)));
        }
        let cell = |column: u8| field(column, name(own));
        let head = match monoid {
            SUM if self.random.chance(50) => two(TIMES, cell(0), cell(1)),
            _ => cell(1),
        };
        comprehension(monoid, qualifiers, head)
    }

    fn key(&mut self, row: Option<u16>) -> Node {
        match row {
            Some(row) if self.random.chance(70) => field(0, name(row)),
            _ => number(self.random.between(1, 3) as i32),
        }
    }
}
