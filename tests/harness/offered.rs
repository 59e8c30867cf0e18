//! How many rows a pass offers (`dislogha_offered_rows`, in an archive of its own) against the second
//! evaluator. Arguments: seed, count of inputs.

use std::process::ExitCode;

use harness::compare::Comparison;
use harness::generate::Input;
use harness::held::run;
use harness::lent::SCRATCH;
use harness::open::{Call, Reply};
use harness::open_call;

open_call!("test_offers", dislogha_offered_rows as offered_rows: scratch of u64);

const OFFERED: Call<i64> = Call {
    name: "offered",
    too_short: None,
    own: &[],
    always: false,
    made: |Input {
               data,
               calendars,
               question,
               ..
           },
           scratch,
           _| { offered_rows(data, calendars, question, scratch) },
    expected: |Input {
                   data,
                   calendars,
                   question,
                   ..
               }| {
        let answer = evaluator::by_plan(data, calendars, question, SCRATCH, u64::MAX)?;
        Ok(Reply {
            number: u64::from(answer.number),
            length: answer.offered,
            written: Vec::new(),
        })
    },
};

fn main() -> ExitCode {
    run(Comparison::new(&OFFERED))
}
