//! The open calls, each with how it is made and what the second evaluator expects of it.

use evaluator::{Answer, Unknown};

use super::calls::{self, Outcome};
use super::generate::Input;
use super::lent::SCRATCH;

/// Words of an answer that is compared: ordering longer ones may take the engine seconds.
pub const MOST_WORDS: usize = 8_300;

/// "1 to 65,535" rows of a portion.
pub const MOST_ROWS: u64 = 65_535;

/// The numbers that data, calendars and question decide; a call may also give 31 and its own `too_short`.
pub const NUMBERS: [u64; 17] = [
    0, 11, 12, 13, 50, 51, 43, 41, 21, 22, 23, 24, 25, 42, 26, 27, 28,
];

/// What a call should do with scratch enough and the longest buffer.
pub struct Reply<T> {
    pub number: u64,
    pub length: u64,
    /// What the buffer then begins with, up to G or the last byte; what is behind it stays. At a refusal that
    /// comes behind `too_short` as many words as that one asks for.
    pub written: Vec<T>,
}

/// An open call.
pub struct Call<T> {
    pub name: &'static str,
    /// The refusal of a buffer that is too short; none where the call takes no buffer.
    pub too_short: Option<u64>,
    /// The refusals that it has of its own.
    pub own: &'static [u64],
    /// Whether it is made even where the evaluator gives up: it ends soon, and takes no buffer.
    pub always: bool,
    /// The call over an input, scratch and buffer.
    pub made: fn(&Input, &mut [u64], &mut [T]) -> Outcome,
    /// What the evaluator says of the input.
    pub expected: fn(&Input) -> Result<Reply<T>, Unknown>,
}

impl<T> Call<T> {
    /// The numbers that the call may give.
    pub fn numbers(&self) -> Vec<u64> {
        let lent = [31].into_iter().chain(self.too_short);
        let own = self.own.iter().copied();
        NUMBERS.into_iter().chain(lent).chain(own).collect()
    }
}

pub const CHECK: Call<i64> = Call {
    name: "check",
    too_short: None,
    own: &[],
    always: true,
    made: |Input {
               data,
               calendars,
               question,
               ..
           },
           scratch,
           _| { calls::check(data, calendars, question, scratch) },
    expected: |Input {
                   data,
                   calendars,
                   question,
                   ..
               }| {
        let (number, length) = evaluator::check(data, calendars, question, SCRATCH)?;
        Ok(Reply {
            number: u64::from(number),
            length,
            written: Vec::new(),
        })
    },
};

pub const LOOPS: Call<i64> = Call {
    name: "loops",
    too_short: Some(32),
    own: &[],
    always: false,
    made: |Input {
               data,
               calendars,
               question,
               ..
           },
           scratch,
           answer| { calls::answer_by_loops(data, calendars, question, scratch, answer) },
    expected: |Input {
                   data,
                   calendars,
                   question,
                   ..
               }| {
        reply_of_answer(evaluator::by_loops(
            data,
            calendars,
            question,
            SCRATCH,
            u64::MAX,
        )?)
    },
};

pub const PLAN: Call<i64> = Call {
    name: "plan",
    too_short: Some(32),
    own: &[],
    always: false,
    made: |Input {
               data,
               calendars,
               question,
               ..
           },
           scratch,
           answer| { calls::answer_by_plan(data, calendars, question, scratch, answer) },
    expected: |Input {
                   data,
                   calendars,
                   question,
                   ..
               }| {
        reply_of_answer(evaluator::by_plan(
            data,
            calendars,
            question,
            SCRATCH,
            u64::MAX,
        )?)
    },
};

/// With the input's tariff: "44 .. 45 .. 46".
pub const TARIFF: Call<i64> = Call {
    name: "tariff",
    too_short: Some(32),
    own: &[44, 45, 46],
    always: false,
    made: |Input {
               data,
               calendars,
               question,
               tariff,
               ..
           },
           scratch,
           answer| {
        calls::answer_with_tariff(data, calendars, question, tariff, scratch, answer)
    },
    expected: |input| {
        let Input {
            data,
            calendars,
            question,
            ..
        } = input;
        let answer = with_tariff(input, SCRATCH, u64::MAX)?;
        // "46 .., after 32": to a buffer of as many words as the question itself asks for.
        let greatest = match answer.number {
            46 => evaluator::by_loops(data, calendars, question, SCRATCH, u64::MAX)?.greatest,
            _ => answer.greatest,
        };
        reply_of_answer(Answer { greatest, ..answer })
    },
};

/// What the evaluator says of an input with its tariff.
pub fn with_tariff(input: &Input, scratch: usize, answer: u64) -> Result<Answer, Unknown> {
    let Input {
        data,
        calendars,
        question,
        tariff,
        ..
    } = input;
    evaluator::with_tariff(data, calendars, question, tariff, scratch, answer)
}

/// Over the subsets of the rows of the input's table: "55 .. 56".
pub const OUTAGES: Call<i64> = Call {
    name: "outages",
    too_short: Some(32),
    own: &[55, 56],
    always: false,
    made: |Input {
               data,
               calendars,
               question,
               table,
               ..
           },
           scratch,
           answer| {
        calls::count_outages(data, calendars, question, *table, scratch, answer)
    },
    expected: |input| reply_of_answer(count_outages(input, SCRATCH, u64::MAX)?),
};

/// What the evaluator says of the outages in an input's table.
pub fn count_outages(input: &Input, scratch: usize, answer: u64) -> Result<Answer, Unknown> {
    let Input {
        data,
        calendars,
        question,
        table,
        ..
    } = input;
    evaluator::count_outages(data, calendars, question, *table, scratch, answer)
}

/// By plan in as few portions as there can be.
pub const PORTIONS: Call<i64> = Call {
    name: "portions",
    too_short: Some(32),
    own: &[],
    always: false,
    made: |Input {
               data,
               calendars,
               question,
               ..
           },
           scratch,
           answer| {
        let begun = calls::begin(data, calendars, question, scratch);
        if begun.number != 0 {
            return begun;
        }
        loop {
            let said = calls::portion(data, calendars, scratch, answer, MOST_ROWS);
            if !said.is_unfinished() {
                return said.outcome();
            }
        }
    },
    expected: PLAN.expected,
};

pub const LINES: Call<u8> = Call {
    name: "lines",
    too_short: Some(33),
    own: &[],
    always: false,
    made: |Input {
               data,
               calendars,
               question,
               ..
           },
           scratch,
           lines| { calls::plan_lines(data, calendars, question, scratch, lines) },
    expected: |Input {
                   data,
                   calendars,
                   question,
                   ..
               }| {
        let (number, written) =
            evaluator::plan_lines(data, calendars, question, SCRATCH, usize::MAX)?;
        Ok(Reply {
            number: u64::from(number),
            length: written.len() as u64,
            written,
        })
    },
};

/// The reply of a call that answers in words.
fn reply_of_answer(answer: Answer) -> Result<Reply<i64>, Unknown> {
    if answer.greatest > MOST_WORDS as u64 {
        return Err(Unknown("an answer of too many words"));
    }
    // "After an answer the words from its length up to G are 0".
    let mut written = answer.words;
    written.resize(answer.greatest as usize, 0);
    Ok(Reply {
        number: u64::from(answer.number),
        length: answer.length,
        written,
    })
}
