//! The two directions between tables by row and by column: the recorded calls, then made records.
//! Arguments: seed, count of records, each turned in both directions.

use std::process::ExitCode;

use harness::arguments;
use harness::direction::{turned_in, Directions};
use harness::tally::exit_code;

const RECORDED: &str = "tests/directions";

fn main() -> ExitCode {
    let [seed, count] = arguments("seed, count of records", [1, 100_000]);
    let mut recorded = Directions::new("directions, recorded");
    match turned_in(RECORDED) {
        Ok(cases) => cases.iter().for_each(|case| recorded.recorded(case)),
        Err(what) => recorded.tally.differs(&[&what]),
    }
    let mut made = Directions::new("directions");
    for index in 0..count {
        made.input((seed, index));
    }
    exit_code([&recorded.tally, &made.tally])
}
