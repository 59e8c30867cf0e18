//! Runs over inputs made from a seed.

use std::process::ExitCode;

use super::arguments;
use super::generate::{generate, Input};
use super::tally::{exit_code, Place, Tally};

/// Something that is held on one input after another, and counts.
pub trait Held {
    fn input(&mut self, place: Place, input: &Input);

    fn tally(&mut self) -> &mut Tally;
}

/// Inputs where none are asked for.
const USUAL_COUNT: u64 = 200_000;

/// As many inputs as the command line asks for.
pub fn run(mut held: impl Held) -> ExitCode {
    let [seed, count] = arguments("seed, count of inputs", [1, USUAL_COUNT]);
    inputs_of(seed, count, &mut [&mut held]);
    exit_code([&*held.tally()])
}

/// The first inputs of a seed, each held in every way.
pub fn inputs_of(seed: u64, count: u64, ways: &mut [&mut dyn Held]) {
    for index in 0..count {
        hold(ways, (seed, index), &generate(seed, index));
    }
}

/// One input, held in every way.
pub fn hold(ways: &mut [&mut dyn Held], place: Place, input: &Input) {
    for held in &mut *ways {
        held.tally().inputs += 1;
        held.input(place, input);
    }
}
