//! Outages counted (document 02, E12) against the engine's own answers: for each subset of the table's rows the data
//! is packed anew, with those rows alone, and the question is answered by plan.

use super::calls::Outcome;
use super::generate::Input;
use super::lent::SCRATCH;
use super::nodes::*;
use super::open::{OUTAGES, PLAN};
use super::tally::{Place, Tally};

/// Rows of the longest tables of which every subset is answered.
const MOST_ROWS: usize = 6;

pub struct Subsets {
    pub tally: Tally,
}

impl Subsets {
    pub fn new() -> Subsets {
        Subsets {
            tally: Tally::new("subsets", vec![0]),
        }
    }

    /// Compares an input whose outages are counted, where its table is short.
    pub fn input(&mut self, place: Place, input: &Input) {
        let Some(rows) = rows_of(input).filter(|rows| *rows <= MOST_ROWS) else {
            return;
        };
        let (outcome, counts) = answered(&OUTAGES.made, input);
        if outcome.number != 0 {
            return;
        }
        self.tally.inputs += 1;
        self.tally.gave(outcome.number);
        let mut found = [0, 0];
        for subset in 0..1 << rows {
            let (alone, words) = answered(&PLAN.made, &with_rows(input, subset));
            match (alone.number, words[0]) {
                (0, 1) => found[0] += 1,
                (0, 0) => found[1] += 1,
                _ => {
                    let what = format!("subset {subset:b} alone: {alone:?}");
                    return self.tally.input_differs(place, input, &what);
                }
            }
        }
        if counts != found {
            let what = format!("counted {counts:?}, by plan one by one {found:?}");
            self.tally.input_differs(place, input, &what);
        }
    }
}

type Made = fn(&Input, &mut [u64], &mut [i64]) -> Outcome;

fn answered(made: &Made, input: &Input) -> (Outcome, [i64; 2]) {
    let (mut scratch, mut answer) = (vec![7; SCRATCH], [7, 7]);
    let outcome = made(input, &mut scratch, &mut answer);
    (outcome, answer)
}

/// The rows of the input's table, where its data has it.
fn rows_of(input: &Input) -> Option<usize> {
    let mut left = &input.data[..];
    while let Some((table, own, end)) = Stored::at_front(left) {
        if u64::from(own) == input.table {
            return Some(table.rows.len());
        }
        left = &left[end..];
    }
    None
}

/// The input with those rows of its table whose bit is set, each table in its kind.
fn with_rows(input: &Input, subset: u32) -> Input {
    let mut data = Vec::new();
    let mut left = &input.data[..];
    while let Some((mut table, own, end)) = Stored::at_front(left) {
        if u64::from(own) == input.table {
            let kept = (0..)
                .zip(table.rows)
                .filter(|(row, _)| subset >> row & 1 == 1);
            table.rows = kept.map(|(_, row)| row).collect();
        }
        data.extend(table.bytes(own));
        left = &left[end..];
    }
    Input {
        data,
        ..input.clone()
    }
}
