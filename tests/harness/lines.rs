//! `dislogha_plan_lines` against the second evaluator. Arguments: seed, count of inputs.

use std::process::ExitCode;

use harness::compare::Comparison;
use harness::held::run;
use harness::open::LINES;

fn main() -> ExitCode {
    run(Comparison::new(&LINES))
}
