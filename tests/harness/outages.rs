//! Outages counted: the recorded calls, then made inputs against the second evaluator, and against the engine's own
//! answers for each subset. Arguments: seed, count of inputs.

use std::process::ExitCode;

use harness::answered::recorded;
use harness::arguments;
use harness::compare::Comparison;
use harness::generate::{often_of, Family};
use harness::held::{hold, Held};
use harness::open::{count_outages, OUTAGES};
use harness::subsets::Subsets;
use harness::tally::exit_code;

const RECORDED: &str = "tests/outages";

/// What the recorded calls give.
const NUMBERS: [u64; 10] = [31, 11, 41, 22, 25, 28, 55, 56, 32, 0];

fn main() -> ExitCode {
    let [seed, count] = arguments("seed, count of inputs", [1, 100_000]);
    let recorded = recorded(
        "outages, recorded",
        RECORDED,
        &NUMBERS,
        &OUTAGES,
        count_outages,
    );
    let mut made = Comparison::on_blocks(&OUTAGES);
    let mut subsets = Subsets::new();
    for index in 0..count {
        let (place, input) = ((seed, index), often_of(Family::Outages, seed, index));
        hold(&mut [&mut made], place, &input);
        subsets.input(place, &input);
    }
    exit_code([&recorded, made.tally(), &subsets.tally])
}
