//! One open call against the second evaluator: its number and length, each word of its buffer,
//! each word of scratch.

use std::time::Instant;

use super::answered::Recorded;
use super::calls::Outcome;
use super::generate::Input;
use super::held::Held;
use super::lent::{lengths, Lent, Unit, SCRATCH};
use super::open::{Call, Reply};
use super::random::Random;
use super::tally::{Place, Tally};

pub struct Comparison<'a, T> {
    call: &'a Call<T>,
    /// Whether each call is made once more on blocks of exactly the lent lengths.
    blocks: bool,
    scratch: Lent<u64>,
    buffer: Lent<T>,
    tally: Tally,
}

/// An input with what the call should do with it.
struct Case<'a, T> {
    place: Place,
    input: &'a Input,
    reply: &'a Reply<T>,
    random: Random,
}

impl<T: Unit> Held for Comparison<'_, T> {
    /// Compares one input, over several lengths of what is lent.
    fn input(&mut self, place: Place, input: &Input) {
        let reply = match (self.call.expected)(input) {
            Ok(reply) => reply,
            Err(unknown) => {
                self.tally.skip(unknown.0);
                if unknown.is_fault() {
                    self.tally.input_differs(place, input, unknown.0);
                }
                if !self.call.always {
                    return;
                }
                self.reply_unknown(input)
            }
        };
        let compared = self.lengths(Case {
            place,
            input,
            reply: &reply,
            random: Random::new(!place.0, place.1),
        });
        if let Err(what) = compared {
            self.tally.input_differs(place, input, &what);
        }
    }

    fn tally(&mut self) -> &mut Tally {
        &mut self.tally
    }
}

impl<'a, T: Unit> Comparison<'a, T> {
    pub fn new(call: &'a Call<T>) -> Comparison<'a, T> {
        Comparison {
            call,
            blocks: false,
            scratch: Lent::new(),
            buffer: Lent::new(),
            tally: Tally::of_questions(call.name, call.numbers()),
        }
    }

    /// The same, and each call is made once more on heap blocks of exactly the lent lengths, so that valgrind sees
    /// a step outside.
    pub fn on_blocks(call: &'a Call<T>) -> Comparison<'a, T> {
        Comparison {
            blocks: true,
            ..Comparison::new(call)
        }
    }

    /// Holds the call against a reply that is known otherwise: once with just so many words of
    /// scratch, then, if they are enough, with several lengths of what is lent.
    pub fn hold(&mut self, input: &Input, reply: &Reply<T>, scratch: usize) -> Result<(), String> {
        self.tally.inputs += 1;
        let mut case = Case {
            place: (0, 0),
            input,
            reply,
            random: Random::new(0, 0),
        };
        let first = self.made(&mut case, scratch, reply.written.len());
        let held = match first {
            Ok(()) if scratch >= SCRATCH => self.lengths(case),
            ended => ended,
        };
        held.map_err(|what| format!("{}: {what}", self.call.name))
    }

    /// What the call itself says is taken for its reply, so that all but the number is compared.
    fn reply_unknown(&mut self, input: &Input) -> Reply<T> {
        let scratch = self.scratch.lend(SCRATCH, 0);
        let outcome = (self.call.made)(input, scratch, &mut []);
        Reply {
            number: outcome.number,
            length: 0,
            written: Vec::new(),
        }
    }

    fn lengths(&mut self, mut case: Case<T>) -> Result<(), String> {
        if case.reply.number == 0 {
            self.tally.answered(&case.input.data, &case.input.question);
        }
        let most = self.call.too_short.map(|_| case.reply.written.len());
        for (scratch, buffer) in lengths(&mut case.random, most) {
            self.made(&mut case, scratch, buffer)?;
        }
        Ok(())
    }

    /// Makes the call once and compares what it gives and leaves behind.
    fn made(&mut self, case: &mut Case<T>, scratch: usize, buffer: usize) -> Result<(), String> {
        let lent_scratch = self.scratch.lend(scratch, case.random.next());
        let lent_buffer = self.buffer.lend(buffer, case.random.next());
        let blocks = self
            .blocks
            .then(|| (lent_scratch.to_vec(), lent_buffer.to_vec()));
        let start = Instant::now();
        let outcome = (self.call.made)(case.input, lent_scratch, lent_buffer);
        self.tally
            .called(outcome.number, start.elapsed(), case.place);
        self.compare_call(case.reply, outcome)
            .and_then(|()| match blocks {
                Some(blocks) => self.same_on(blocks, case.input, outcome),
                None => Ok(()),
            })
            .map_err(|what| format!("scratch of {scratch}, buffer of {buffer}: {what}"))
    }

    /// The same call on blocks of their own, which held the same.
    fn same_on(
        &self,
        (mut scratch, mut buffer): (Vec<u64>, Vec<T>),
        input: &Input,
        outcome: Outcome,
    ) -> Result<(), String> {
        let again = (self.call.made)(&input.clone(), &mut scratch, &mut buffer);
        let same = again == outcome
            && scratch == self.scratch.front(scratch.len())
            && buffer == self.buffer.front(buffer.len());
        match same {
            true => Ok(()),
            false => Err(format!("{outcome:?}, on blocks of their own {again:?}")),
        }
    }

    /// The order of refusals that depend on what is lent, and what each outcome leaves behind.
    fn compare_call(&self, reply: &Reply<T>, outcome: Outcome) -> Result<(), String> {
        let number = match self.call.too_short {
            _ if self.scratch.len() < SCRATCH => 31,
            Some(too_short) if self.buffer.len() < reply.written.len() => too_short,
            _ => reply.number,
        };
        let (length, written): (u64, &[T]) = match number {
            0 => (reply.length, &reply.written),
            _ => (0, &[]),
        };
        let wanted = Outcome { number, length };
        if outcome != wanted || !self.call.numbers().contains(&number) {
            return Err(format!("outcome is {outcome:?}, should be {wanted:?}"));
        }
        if let Some(what) = self.buffer.differs(written, 0) {
            return Err(format!("after {number} unit {what}"));
        }
        cleared(&self.scratch, number)
    }
}

impl Comparison<'_, i64> {
    /// Holds the call against a recorded one.
    pub fn recorded(&mut self, case: &Recorded) -> Result<(), String> {
        let lent_scratch = self.scratch.lend(case.scratch, 1);
        let lent_answer = self.buffer.lend(case.answer, 2);
        let blocks = (lent_scratch.to_vec(), lent_answer.to_vec());
        let outcome = (self.call.made)(&case.input, lent_scratch, lent_answer);
        let wanted = Outcome {
            number: case.number,
            length: case.length,
        };
        if outcome != wanted {
            return Err(format!("outcome is {outcome:?}, should be {wanted:?}"));
        }
        if let Some(what) = self.buffer.differs(&case.words, 0) {
            return Err(format!("word {what}"));
        }
        cleared(&self.scratch, case.number)?;
        self.same_on(blocks, &case.input, outcome)
    }
}

/// "After every call but 31 the first .. scratch words are 0, later ones unchanged."
pub fn cleared(scratch: &Lent<u64>, number: u64) -> Result<(), String> {
    let zeros = if number == 31 { 0 } else { SCRATCH };
    match scratch.differs(&[], zeros) {
        Some(what) => Err(format!("after {number} scratch word {what}")),
        None => Ok(()),
    }
}
