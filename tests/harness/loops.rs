//! `dislogha_answer_by_loops` against the second evaluator. Arguments: seed, count of inputs.

use std::process::ExitCode;

use harness::compare::Comparison;
use harness::held::run;
use harness::open::LOOPS;

fn main() -> ExitCode {
    run(Comparison::new(&LOOPS))
}
