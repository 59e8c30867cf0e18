//! The calls about days and hours: the recorded ones; all days of the years both ways, and dates that do not
//! exist; made calendars. Arguments: seed, count of made calendars.

use std::process::ExitCode;

use harness::arguments;
use harness::calendar_calls::{calls_in, Days};
use harness::tally::exit_code;

const RECORDED: &str = "tests/days";

fn main() -> ExitCode {
    let [seed, count] = arguments("seed, count of calendars", [1, 200_000]);
    let mut recorded = Days::of_hours("days, recorded");
    match calls_in(RECORDED) {
        Ok(cases) => cases.iter().for_each(|case| recorded.recorded(case)),
        Err(what) => recorded.tally.differs(&[&what]),
    }
    let mut days = Days::of_dates("days");
    days.all_days();
    let mut hours = Days::of_hours("first open");
    for index in 0..count {
        hours.input((seed, index));
    }
    exit_code([&recorded.tally, &days.tally, &hours.tally])
}
