//! `dislogha_answer_by_plan` against the second evaluator. Arguments: seed, count of inputs.

use std::process::ExitCode;

use harness::compare::Comparison;
use harness::held::run;
use harness::open::PLAN;

fn main() -> ExitCode {
    run(Comparison::new(&PLAN))
}
