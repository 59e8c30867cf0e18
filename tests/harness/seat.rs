//! A question with a scratch and an answer buffer of its own: how it is begun, and what each portion of
//! it must say and leave, known from the single call and from the second evaluator's count of rows.

use evaluator::Unknown;

use super::calls::{self, Outcome, Portioned};
use super::compare::cleared;
use super::generate::Input;
use super::lent::SCRATCH;
use super::offers::most_offers;
use super::open::{CHECK, LINES, LOOPS, PLAN, PORTIONS};
use super::random::Random;
use super::ways::{agree, Way, OTHER};

/// Rows that a question may be offered in a pass.
pub const MOST_OFFERS: u64 = 100_000;

/// In the tally: a portion that is unfinished. No refusal has the number.
pub const UNFINISHED: u64 = 1;

/// What the second evaluator knows of an accepted question.
#[derive(Clone, Copy)]
pub struct Known {
    /// Rows that a pass offers.
    pub pass: u64,
    /// G.
    pub greatest: usize,
}

pub struct Seat {
    pub way: Way,
    /// The single call, and what it gives.
    alone: Way,
    pub outcome: Outcome,
    pub known: Known,
    /// Rows offered so far, once it is begun.
    pub offered: Option<u64>,
    pub given_up: usize,
}

/// Nothing but zeros of a refused question.
pub fn known_of(input: &Input) -> Result<Known, Unknown> {
    if most_offers(input) > MOST_OFFERS {
        return Err(Unknown("too many rows may be offered"));
    }
    let answer = evaluator::by_plan(
        &input.data,
        &input.calendars,
        &input.question,
        SCRATCH,
        u64::MAX,
    )?;
    Ok(Known {
        pass: answer.offered,
        greatest: usize::try_from(answer.greatest).unwrap_or(usize::MAX),
    })
}

/// What is said where no row is offered.
fn declined(number: u64) -> Portioned {
    Portioned {
        finished: 0,
        rows: 0,
        number,
        length: 0,
    }
}

impl Seat {
    pub fn new() -> Seat {
        Seat {
            way: Way::new(PORTIONS),
            alone: Way::new(PLAN),
            outcome: Outcome {
                number: 0,
                length: 0,
            },
            known: Known {
                pass: 0,
                greatest: 0,
            },
            offered: None,
            given_up: 0,
        }
    }

    /// Lends scratch and answer full of rubbish, and answers in a single call.
    pub fn sit(&mut self, input: &Input, known: Known, lent: (usize, usize), salt: u64) {
        self.outcome = self.alone.answers(input, lent, salt);
        self.known = known;
        self.offered = None;
        self.given_up = 0;
        self.way.scratch.lend(lent.0, salt ^ OTHER);
        self.way.answer.lend(lent.1, salt ^ OTHER);
    }

    /// "each once while G is found and, unless 32 follows, once more while the answer is written"
    pub fn all_rows(&self) -> u64 {
        match self.outcome.number {
            32 => self.known.pass,
            _ => 2 * self.known.pass,
        }
    }

    /// "One call begins, with all refusals to 28", and 31: its number, and whether that was all.
    pub fn begin(&mut self, input: &Input) -> Result<(u64, bool), String> {
        let begun = calls::begin(
            &input.data,
            &input.calendars,
            &input.question,
            self.way.scratch.again(),
        );
        let wanted = match self.outcome.number {
            0 | 32 => 0,
            number => number,
        };
        if begun.number != wanted || begun.length != 0 {
            return Err(format!("begin gave {begun:?}, should be {wanted}"));
        }
        if wanted != 0 {
            agree([(&self.alone, self.outcome), (&self.way, begun)])?;
            return Ok((begun.number, true));
        }
        self.offered = Some(0);
        self.stands()?;
        Ok((begun.number, false))
    }

    /// What a portion of so many rows said and left, the answer buffer having been `before`: what it
    /// is counted as, and whether the question has ended.
    pub fn told(
        &mut self,
        rows: u64,
        said: Portioned,
        before: &[i64],
    ) -> Result<(u64, bool), String> {
        let offered = self.offered.ok_or("no question is unfinished")?;
        let due = self.all_rows() - offered;
        let ends = due <= rows;
        let Outcome { number, length } = self.outcome;
        let wanted = Portioned {
            finished: u64::from(ends),
            rows: rows.min(due),
            number: if ends { number } else { 0 },
            length: if ends { length } else { 0 },
        };
        if said != wanted {
            let behind = format!("{rows} rows behind {offered}");
            return Err(format!("{behind}: {said:?}, should be {wanted:?}"));
        }
        if ends {
            self.offered = None;
            agree([(&self.alone, self.outcome), (&self.way, said.outcome())])?;
            return Ok((said.number, true));
        }
        self.offered = Some(offered + rows);
        self.stands()?;
        if offered + rows < self.known.pass && *self.way.answer.again() != *before {
            return Err(format!("{rows} rows behind {offered}: answer is written"));
        }
        Ok((UNFINISHED, false))
    }

    /// What stands in scratch and answer.
    pub fn held(&mut self) -> (Vec<u64>, Vec<i64>) {
        let Way {
            scratch, answer, ..
        } = &mut self.way;
        (scratch.again().to_vec(), answer.again().to_vec())
    }

    /// What declined an unfinished question, or found none, left all as it was.
    pub fn unchanged(
        &mut self,
        said: Portioned,
        number: u64,
        before: &(Vec<u64>, Vec<i64>),
    ) -> Result<u64, String> {
        let wanted = declined(number);
        if said != wanted {
            return Err(format!("{said:?}, should be {wanted:?}"));
        }
        let Way {
            scratch, answer, ..
        } = &mut self.way;
        if *scratch.again() != *before.0 || *answer.again() != *before.1 {
            return Err(format!("{number} has changed something"));
        }
        match scratch.broken_fence().or(answer.broken_fence()) {
            Some(what) => Err(format!("after {number} fence {what}")),
            None => Ok(number),
        }
    }

    /// Another call takes the scratch; then no question is unfinished.
    pub fn lose_scratch(&mut self, input: &Input, random: &mut Random) -> Result<(), String> {
        self.offered = None;
        let scratch = self.way.scratch.again();
        let (mut words, mut bytes) = ([0; 8], [0; 64]);
        let whole = match random.below(4) {
            0 => (CHECK.made)(input, scratch, &mut []),
            1 => (LOOPS.made)(input, scratch, &mut words),
            2 => (PLAN.made)(input, scratch, &mut words),
            _ => (LINES.made)(input, scratch, &mut bytes),
        };
        cleared(&self.way.scratch, whole.number)
    }

    /// "Scratch holds the unfinished question", later words stay, and so do those of the answer
    /// buffer from G on.
    fn stands(&self) -> Result<(), String> {
        let Way {
            scratch, answer, ..
        } = &self.way;
        if scratch.front(SCRATCH).iter().all(|word| *word == 0) {
            return Err("scratch of an unfinished question is 0".to_string());
        }
        if let Some(what) = scratch.differs(scratch.front(SCRATCH), 0) {
            return Err(format!("unfinished, and scratch word {what}"));
        }
        let written = self.known.greatest.min(answer.len());
        match answer.differs(answer.front(written), 0) {
            Some(what) => Err(format!("unfinished, and answer word {what}")),
            None => Ok(()),
        }
    }
}
