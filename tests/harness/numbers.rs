//! The numbers that are written into tables' records (document 02, E9): skipped, out of order, above 7 and
//! used twice. Tables are made, and named in questions, by their place; here a place gets its number.

use super::nodes::*;
use super::random::Random;

/// A number for each place, all of 0 to 7: so a number that no table has stays one when it is renamed.
#[derive(Clone, Copy)]
pub struct Numbers([u8; NUMBERED]);

impl Numbers {
    /// In some inputs each table has its place for its number, in the others any.
    pub fn random(random: &mut Random) -> Numbers {
        let mut numbers = [0, 1, 2, 3, 4, 5, 6, 7];
        if random.chance(60) {
            for last in (1..NUMBERED).rev() {
                numbers.swap(last, random.between(0, last));
            }
        }
        Numbers(numbers)
    }

    /// The tables' records, in the order in which they were made.
    pub fn records(&self, tables: &[Stored]) -> Vec<Vec<u8>> {
        let numbered = self.0.iter().zip(tables);
        numbered
            .map(|(number, table)| table.bytes(*number))
            .collect()
    }

    /// The number of a place.
    pub fn of(&self, place: usize) -> u64 {
        u64::from(self.0[place % NUMBERED])
    }

    pub fn data(&self, tables: &[Stored]) -> Vec<u8> {
        self.records(tables).concat()
    }

    /// The question over tables that have these numbers.
    pub fn renamed(&self, question: Node) -> Node {
        let mut renamed = question;
        self.rename(&mut renamed);
        renamed
    }

    fn rename(&self, node: &mut Node) {
        if let (TABLE, [number]) = (node.kind, &mut node.fixed[..]) {
            *number = self.0.get(usize::from(*number)).copied().unwrap_or(*number);
        }
        for part in &mut node.parts {
            self.rename(part);
        }
    }
}

/// The numbers of records, whole or not, that have one.
fn numbers_of(records: &[Vec<u8>]) -> Vec<u8> {
    let number = |record: &Vec<u8>| record.get(NUMBER_AT).copied();
    records.iter().filter_map(number).collect()
}

/// A number that no record has; 0 where all are used.
pub fn free_number(random: &mut Random, records: &[Vec<u8>]) -> u8 {
    let used = numbers_of(records);
    let free: Vec<u8> = (0..=7).filter(|number| !used.contains(number)).collect();
    random.one_of(&free, 0)
}

/// "50, a number above 7; 51, a number already used": one of either.
pub fn broken_number(random: &mut Random, records: &[Vec<u8>]) -> u8 {
    let above = random.between(NUMBERED, 255);
    let above = u8::try_from(above).unwrap_or(u8::MAX);
    match random.below(2) {
        0 => random.one_of(&[8, 8, 9, 255, above], 8),
        _ => random.one_of(&numbers_of(records), 8),
    }
}
