//! Every open call over tables that are turned into the other kind, broken ones too: all that it says and
//! writes must be the same. Arguments: seed, count of inputs. Only inputs with a table are counted.

use std::process::ExitCode;

use harness::alike::Alike;
use harness::arguments;
use harness::by_column::other_kind;
use harness::generate::generate;
use harness::open::NUMBERS;
use harness::tally::exit_code;

fn main() -> ExitCode {
    let [seed, count] = arguments("seed, count of inputs", [1, 100_000]);
    let known = NUMBERS
        .into_iter()
        .chain([31, 32, 33, 44, 45, 46, 55, 56])
        .collect();
    let mut kinds = Alike::new("kinds", known);
    for index in 0..count {
        let (place, input) = ((seed, index), generate(seed, index));
        if let Some(data) = other_kind(place, &input.data) {
            kinds.over_data(place, &input, data);
        }
    }
    exit_code([&kinds.tally])
}
