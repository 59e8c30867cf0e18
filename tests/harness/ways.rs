//! Both ways of answering against each other, each with rubbish of its own in all that is lent.

use std::time::Instant;

use super::calls::Outcome;
use super::compare::cleared;
use super::generate::Input;
use super::held::Held;
use super::lent::{lengths, Lent, Unit, SCRATCH};
use super::offers::most_offers;
use super::open::{Call, LOOPS, MOST_WORDS, PLAN};
use super::random::Random;
use super::tally::{Place, Tally};

/// Rows offered for an answer that is compared.
pub const MOST_OFFERS: u64 = 1_000_000;

/// Of two salts that differ by it the rubbish differs in every word.
pub const OTHER: u64 = 1 << 63;

/// A way of answering, and what is lent to it; also another open call, the plan's with bytes for words.
pub struct Way<T = i64> {
    pub call: Call<T>,
    pub scratch: Lent<u64>,
    pub answer: Lent<T>,
}

pub struct Ways {
    loops: Way,
    plan: Way,
    tally: Tally,
}

impl Held for Ways {
    fn input(&mut self, place: Place, input: &Input) {
        if most_offers(input) > MOST_OFFERS {
            return self.tally.skip("too many rows may be offered");
        }
        if let Err(what) = self.lengths(place, input) {
            self.tally.input_differs(place, input, &what);
        }
    }

    fn tally(&mut self) -> &mut Tally {
        &mut self.tally
    }
}

impl Ways {
    pub fn new() -> Ways {
        Ways {
            loops: Way::new(LOOPS),
            plan: Way::new(PLAN),
            tally: Tally::of_questions("both", LOOPS.numbers()),
        }
    }

    /// The longest buffer shows G, the others are around it.
    fn lengths(&mut self, place: Place, input: &Input) -> Result<(), String> {
        let mut random = Random::new(!place.0, place.1);
        let written = self.compare(place, input, (SCRATCH, MOST_WORDS), random.next())?;
        for lent in lengths(&mut random, Some(written)) {
            self.compare(place, input, lent, random.next())?;
        }
        Ok(())
    }

    /// Answers both ways and compares; gives how many words were written.
    fn compare(
        &mut self,
        place: Place,
        input: &Input,
        lent: (usize, usize),
        salt: u64,
    ) -> Result<usize, String> {
        let start = Instant::now();
        let by_loops = self.loops.answers(input, lent, salt);
        let by_plan = self.plan.answers(input, lent, salt ^ OTHER);
        self.tally.called(by_plan.number, start.elapsed(), place);
        if by_plan.number == 0 {
            self.tally.answered(&input.data, &input.question);
        }
        agree([(&self.loops, by_loops), (&self.plan, by_plan)])
            .map_err(|what| format!("scratch and answer of {lent:?}: {what}"))
    }
}

/// What two calls wrote is the same up to G, and each has its own rubbish behind it; gives how many
/// words these are.
pub fn agree<T: Unit>(calls: [(&Way<T>, Outcome); 2]) -> Result<usize, String> {
    let [(first, outcome), (second, other)] = calls;
    if outcome != other {
        let names = [first.call.name, second.call.name];
        return Err(format!(
            "{outcome:?} by {}, {other:?} by {}",
            names[0], names[1]
        ));
    }
    let Outcome { number, length } = outcome;
    let written = match number {
        0 => first.answer.shared_with(&second.answer),
        _ => &[],
    };
    for way in [first, second] {
        let name = way.call.name;
        if let Some(what) = way.answer.differs(written, 0) {
            let alike = written.len();
            return Err(format!(
                "after {number} {alike} words are alike; by {name} word {what}"
            ));
        }
        cleared(&way.scratch, number).map_err(|what| format!("by {name} {what}"))?;
    }
    // "After an answer the words from its length up to G are 0".
    match written.get(length as usize..) {
        Some(rest) if rest.iter().all(|word| *word == T::default()) => Ok(written.len()),
        _ => Err(format!("length {length}, and written is {written:?}")),
    }
}

impl<T: Unit> Way<T> {
    pub fn new(call: Call<T>) -> Way<T> {
        Way {
            call,
            scratch: Lent::new(),
            answer: Lent::new(),
        }
    }

    /// Answers with so many words of scratch and of answer.
    pub fn answers(&mut self, input: &Input, lent: (usize, usize), salt: u64) -> Outcome {
        let scratch = self.scratch.lend(lent.0, salt);
        let answer = self.answer.lend(lent.1, salt);
        (self.call.made)(input, scratch, answer)
    }

    /// The first words of the answer buffer.
    pub fn front(&self, words: usize) -> &[T] {
        self.answer.front(words)
    }
}
