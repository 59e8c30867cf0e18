//! "Survey order must not show" (document 02, E14): each way of answering, and answering with a tariff, against
//! itself, over the tables as they were made and over the same tables in another state.

use std::time::Instant;

use super::by_column::MOST_ROWS;
use super::generate::Input;
use super::lent::{lengths, SCRATCH};
use super::nodes::*;
use super::offers::most_offers;
use super::open::{LOOPS, MOST_WORDS, NUMBERS, PLAN, TARIFF};
use super::random::Random;
use super::tally::{Place, Tally};
use super::ways::{agree, Way, MOST_OFFERS, OTHER};

type Rows = Vec<Vec<i32>>;

/// Another state of a table's rows, by its collection; nothing where it has none.
pub type Change = fn(&mut Random, u8, Rows) -> Rows;

/// "rearranging the rows of any bag or set table"
pub const REARRANGED: Change = |random, collection, mut rows| {
    if collection == BAG || collection == SET {
        for last in (1..rows.len()).rev() {
            rows.swap(last, random.between(0, last));
        }
    }
    rows
};

/// "repeating a row of a set table, within 1,024 rows": up to three times, and all rows rearranged.
pub const REPEATED: Change = |random, collection, mut rows| {
    if collection == SET && !rows.is_empty() {
        let copies = random
            .between(1, 3)
            .min(MOST_ROWS.saturating_sub(rows.len()));
        for _ in 0..copies {
            rows.push(rows[random.below(rows.len())].clone());
        }
    }
    REARRANGED(random, collection, rows)
};

/// What two states of the tables must have in common.
#[derive(Clone, Copy, PartialEq, Eq)]
pub enum Common {
    /// Number, length, the words up to G, with buffers of any one length.
    Outcome,
    /// Number, length and the words before it, where both buffers suffice.
    Words,
}

/// Both ways of answering, and the dues, each over two states of the tables.
pub struct RowOrder {
    change: Change,
    common: Common,
    ways: [(Way, Way); 3],
    pub tally: Tally,
}

impl RowOrder {
    pub fn new(name: &'static str, change: Change, common: Common) -> RowOrder {
        let known = match common {
            Common::Outcome => TARIFF.numbers(),
            Common::Words => [&NUMBERS, TARIFF.own].concat(),
        };
        RowOrder {
            change,
            common,
            ways: [
                (Way::new(LOOPS), Way::new(LOOPS)),
                (Way::new(PLAN), Way::new(PLAN)),
                (Way::new(TARIFF), Way::new(TARIFF)),
            ],
            tally: Tally::of_questions(name, known),
        }
    }

    /// Compares an input, if the change shows in its data.
    pub fn input(&mut self, place: Place, input: &Input) {
        let mut random = Random::new(!place.0, place.1);
        let data = changed(&mut random, self.change, &input.data);
        if data == input.data {
            return;
        }
        self.tally.inputs += 1;
        let other = Input {
            data,
            ..input.clone()
        };
        if most_offers(input).max(most_offers(&other)) > MOST_OFFERS {
            return self.tally.skip("too many rows may be offered");
        }
        for way in 0..self.ways.len() {
            let compared = match self.common {
                Common::Outcome => self.outcomes(place, way, [input, &other], &mut random),
                Common::Words => self.words(place, way, [input, &other], random.next()),
            };
            if let Err(what) = compared {
                self.tally.input_differs(place, &other, &what);
                return self
                    .tally
                    .input_differs(place, input, "was the first state");
            }
        }
    }

    /// The longest buffer shows G, the others are around it.
    fn outcomes(
        &mut self,
        place: Place,
        way: usize,
        states: [&Input; 2],
        random: &mut Random,
    ) -> Result<(), String> {
        let written = self.outcome(place, way, states, (SCRATCH, MOST_WORDS), random.next())?;
        for lent in lengths(random, Some(written)) {
            self.outcome(place, way, states, lent, random.next())?;
        }
        Ok(())
    }

    /// Answers over both states; gives how many words were written.
    fn outcome(
        &mut self,
        place: Place,
        way: usize,
        [input, other]: [&Input; 2],
        lent: (usize, usize),
        salt: u64,
    ) -> Result<usize, String> {
        let (first, second) = &mut self.ways[way];
        let start = Instant::now();
        let one = first.answers(input, lent, salt);
        let two = second.answers(other, lent, salt ^ OTHER);
        self.tally.called(one.number, start.elapsed(), place);
        if one.number == 0 {
            self.tally.answered(&input.data, &input.question);
        }
        agree([(&*first, one), (&*second, two)])
            .map_err(|what| format!("scratch and answer of {lent:?}: {what}"))
    }

    fn words(
        &mut self,
        place: Place,
        way: usize,
        [input, other]: [&Input; 2],
        salt: u64,
    ) -> Result<(), String> {
        let (first, second) = &mut self.ways[way];
        let start = Instant::now();
        let one = first.answers(input, (SCRATCH, MOST_WORDS), salt);
        let two = second.answers(other, (SCRATCH, MOST_WORDS + 1), salt ^ OTHER);
        if one.number == 32 || two.number == 32 {
            self.tally.skip("a buffer that does not suffice");
            return Ok(());
        }
        self.tally.called(one.number, start.elapsed(), place);
        if one.number == 0 {
            self.tally.answered(&input.data, &input.question);
        }
        let length = one.length as usize;
        if one != two || first.front(length) != second.front(length) {
            return Err(format!("{one:?}, and {two:?} in the other state"));
        }
        Ok(())
    }
}

/// The data with the rows of each whole table in front changed, of either kind; from the first other byte
/// on as it was.
fn changed(random: &mut Random, change: Change, data: &[u8]) -> Vec<u8> {
    let mut made = Vec::new();
    let mut rest = data;
    while let Some((mut table, number, end)) = Stored::at_front(rest) {
        table.rows = change(random, table.collection, table.rows);
        made.extend(table.bytes(number));
        rest = &rest[end..];
    }
    made.extend(rest);
    made
}
