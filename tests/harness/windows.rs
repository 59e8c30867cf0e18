//! Every open call over calendars whose windows stand in another order, twice, or in two parts: all that it
//! says and writes must be the same. Arguments: seed, count of inputs. Only inputs with such calendars are
//! counted.

use std::process::ExitCode;

use harness::alike::Alike;
use harness::arguments;
use harness::calendars::in_other_words;
use harness::generate::generate;
use harness::open::NUMBERS;
use harness::tally::exit_code;

fn main() -> ExitCode {
    let [seed, count] = arguments("seed, count of inputs", [1, 100_000]);
    let known = NUMBERS
        .into_iter()
        .chain([31, 32, 33, 44, 45, 46, 55, 56])
        .collect();
    let mut windows = Alike::new("windows", known);
    for index in 0..count {
        let (place, input) = ((seed, index), generate(seed, index));
        if let Some(calendars) = in_other_words(place, &input.calendars) {
            windows.over_calendars(place, &input, calendars);
        }
    }
    exit_code([&windows.tally])
}
