//! Every open call over tables whose records stand in another order: the refusals of the question, the
//! plan's lines and what portions and rounds say must be the same, too. Arguments: seed, count of inputs.
//! Only inputs that have another order are counted.

use std::process::ExitCode;

use harness::alike::Alike;
use harness::arguments;
use harness::generate::generate;
use harness::record_order::other_order;
use harness::tally::exit_code;

/// What a call over data that reads can give.
const NUMBERS: [u64; 19] = [
    0, 41, 21, 22, 23, 24, 25, 42, 26, 27, 28, 31, 32, 33, 44, 45, 46, 55, 56,
];

fn main() -> ExitCode {
    let [seed, count] = arguments("seed, count of inputs", [1, 100_000]);
    let mut records = Alike::new("records", NUMBERS.to_vec());
    for index in 0..count {
        let (place, input) = ((seed, index), generate(seed, index));
        if let Some(data) = other_order(place, &input.data) {
            records.over_data(place, &input, data);
        }
    }
    exit_code([&records.tally])
}
