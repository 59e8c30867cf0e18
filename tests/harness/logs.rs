//! Two logs paired: the recorded calls, then made logs.
//! Arguments: seed, count of inputs.

use std::process::ExitCode;

use harness::arguments;
use harness::pairing::{paired_in, Pairing};
use harness::tally::exit_code;

const RECORDED: &str = "tests/logs";

fn main() -> ExitCode {
    let [seed, count] = arguments("seed, count of inputs", [1, 100_000]);
    let mut recorded = Pairing::new("logs, recorded");
    match paired_in(RECORDED) {
        Ok(cases) => cases.iter().for_each(|case| recorded.recorded(case)),
        Err(what) => recorded.tally.differs(&[&what]),
    }
    let mut made = Pairing::new("logs");
    for index in 0..count {
        made.input((seed, index));
    }
    exit_code([&recorded.tally, &made.tally])
}
