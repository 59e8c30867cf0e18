//! Answers with a tariff: the recorded calls, then made inputs against the second evaluator.
//! Arguments: seed, count of inputs.

use std::process::ExitCode;

use harness::answered::recorded;
use harness::arguments;
use harness::compare::Comparison;
use harness::generate::{often_of, Family};
use harness::held::{hold, Held};
use harness::open::{with_tariff, TARIFF};
use harness::tally::exit_code;

const RECORDED: &str = "tests/tariffs";

/// What the recorded calls give.
const NUMBERS: [u64; 11] = [31, 44, 11, 41, 22, 42, 28, 45, 32, 46, 0];

fn main() -> ExitCode {
    let [seed, count] = arguments("seed, count of inputs", [1, 200_000]);
    let recorded = recorded("dues, recorded", RECORDED, &NUMBERS, &TARIFF, with_tariff);
    let mut made = Comparison::on_blocks(&TARIFF);
    for index in 0..count {
        let input = often_of(Family::Ships, seed, index);
        hold(&mut [&mut made], (seed, index), &input);
    }
    exit_code([&recorded, made.tally()])
}
