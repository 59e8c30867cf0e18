//! Every open call against itself, over data and calendars in two states that must be the same to it (document
//! 02: the records in another order, E9; the tables in the other kind, E10; the calendars' windows in other
//! words, E4): number, length, all words up to G, the plan's bytes, and what portions and rounds say.

use std::time::Instant;

use super::calls::{self, LentSeat, Outcome, Portioned};
use super::generate::Input;
use super::lent::{lengths, Unit, SCRATCH};
use super::offers::most_offers;
use super::open::{
    Call, CHECK, LINES, LOOPS, MOST_ROWS, MOST_WORDS, OUTAGES, PLAN, PORTIONS, TARIFF,
};
use super::random::Random;
use super::tally::{Place, Tally};
use super::ways::{agree, Way, MOST_OFFERS, OTHER};

/// Bytes that hold any plan's lines.
const MOST_BYTES: usize = 32_768;

/// Portions and rounds of one question that have few rows; the rest have as many as there can be.
const FEW_ROWS: usize = 20;

/// The same call over both states.
struct Both<T = i64> {
    ways: [Way<T>; 2],
    /// Units of a buffer that any answer may have.
    most: usize,
}

pub struct Alike {
    in_words: [Both; 5],
    lines: Both<u8>,
    portions: [Way; 2],
    pub tally: Tally,
}

impl Alike {
    /// A run that may come to these numbers, and must.
    pub fn new(name: &'static str, known: Vec<u64>) -> Alike {
        Alike {
            in_words: [
                Both::new([CHECK, CHECK], 0),
                Both::new([LOOPS, LOOPS], MOST_WORDS),
                Both::new([PLAN, PLAN], MOST_WORDS),
                Both::new([TARIFF, TARIFF], MOST_WORDS),
                Both::new([OUTAGES, OUTAGES], MOST_WORDS),
            ],
            lines: Both::new([LINES, LINES], MOST_BYTES),
            portions: [PORTIONS, PORTIONS].map(Way::new),
            tally: Tally::of_questions(name, known),
        }
    }

    /// Compares an input with the same question over the other state of its data.
    pub fn over_data(&mut self, place: Place, input: &Input, data: Vec<u8>) {
        let other = Input {
            data,
            ..input.clone()
        };
        self.input(place, input, &other);
    }

    /// The same over the other state of its calendars.
    pub fn over_calendars(&mut self, place: Place, input: &Input, calendars: Vec<u8>) {
        let other = Input {
            calendars,
            ..input.clone()
        };
        self.input(place, input, &other);
    }

    fn input(&mut self, place: Place, input: &Input, other: &Input) {
        self.tally.inputs += 1;
        if most_offers(input).max(most_offers(other)) > MOST_OFFERS {
            return self.tally.skip("too many rows may be offered");
        }
        let mut random = Random::new(!place.0, place.1);
        if let Err(what) = self.compare(place, [input, other], &mut random) {
            self.tally.input_differs(place, other, &what);
            self.tally
                .input_differs(place, input, "was the first state");
        }
    }

    fn compare(
        &mut self,
        place: Place,
        states: [&Input; 2],
        random: &mut Random,
    ) -> Result<(), String> {
        for both in &mut self.in_words {
            both.compare(&mut self.tally, place, states, random)?;
        }
        self.lines.compare(&mut self.tally, place, states, random)?;
        self.in_portions(place, states, random)
    }

    /// Begins the question over both states and offers it the same portions and rounds.
    fn in_portions(
        &mut self,
        place: Place,
        states: [&Input; 2],
        random: &mut Random,
    ) -> Result<(), String> {
        let salt = random.next();
        let start = Instant::now();
        let [one, two] = &mut self.portions;
        let begun = begin(one, states[0], salt);
        let other = begin(two, states[1], salt ^ OTHER);
        let ended = match begun.number {
            0 if begun == other => portions([(one, states[0]), (two, states[1])], random)?,
            _ => [begun, other],
        };
        self.tally.called(ended[0].number, start.elapsed(), place);
        let [one, two] = &self.portions;
        agree([(one, ended[0]), (two, ended[1])]).map_err(|what| format!("in portions: {what}"))?;
        Ok(())
    }
}

fn begin(way: &mut Way, input: &Input, salt: u64) -> Outcome {
    way.answer.lend(MOST_WORDS, salt);
    let scratch = way.scratch.lend(SCRATCH, salt);
    calls::begin(&input.data, &input.calendars, &input.question, scratch)
}

/// Portions and rounds until both have ended; each must say the same of both.
fn portions(
    [(one, input), (two, other)]: [(&mut Way, &Input); 2],
    random: &mut Random,
) -> Result<[Outcome; 2], String> {
    for made in 0.. {
        let few = random.one_of(&[1, 1, 2, 3, 10, 100], 1);
        let round = random.chance(30) && made < FEW_ROWS;
        let rows = if made < FEW_ROWS { few } else { MOST_ROWS };
        let said = offered(one, input, rows, round);
        let also = offered(two, other, rows, round);
        if said != also {
            return Err(format!("{rows} rows: {said:?}, and {also:?}"));
        }
        if !said.is_unfinished() {
            return Ok([said.outcome(), also.outcome()]);
        }
    }
    Err("no end".to_string())
}

/// A portion, or a round over a rota of this seat alone.
fn offered(way: &mut Way, input: &Input, rows: u64, round: bool) -> Portioned {
    let (scratch, answer) = (way.scratch.again(), way.answer.again());
    if !round {
        return calls::portion(&input.data, &input.calendars, scratch, answer, rows);
    }
    let none = || LentSeat {
        scratch: &mut [],
        answer: &mut [],
    };
    let seats = [LentSeat { scratch, answer }, none(), none(), none()];
    calls::round(&input.data, &input.calendars, &[rows], seats).seats[0]
}

impl<T: Unit> Both<T> {
    fn new(calls: [Call<T>; 2], most: usize) -> Both<T> {
        Both {
            ways: calls.map(Way::new),
            most,
        }
    }

    /// The longest buffer shows how much is written, the others are around it.
    fn compare(
        &mut self,
        tally: &mut Tally,
        place: Place,
        states: [&Input; 2],
        random: &mut Random,
    ) -> Result<(), String> {
        let longest = (SCRATCH, self.most);
        let written = self.made(tally, place, states, longest, random.next())?;
        let most = self.ways[0].call.too_short.map(|_| written);
        for lent in lengths(random, most) {
            self.made(tally, place, states, lent, random.next())?;
        }
        Ok(())
    }

    /// Makes the call over both states; gives how many units were written.
    fn made(
        &mut self,
        tally: &mut Tally,
        place: Place,
        [input, other]: [&Input; 2],
        lent: (usize, usize),
        salt: u64,
    ) -> Result<usize, String> {
        let [first, second] = &mut self.ways;
        let start = Instant::now();
        let one = first.answers(input, lent, salt);
        let two = second.answers(other, lent, salt ^ OTHER);
        tally.called(one.number, start.elapsed(), place);
        if one.number == 0 {
            tally.answered(&input.data, &input.question);
        }
        agree([(&*first, one), (&*second, two)])
            .map_err(|what| format!("scratch and buffer of {lent:?}: {what}"))
    }
}
