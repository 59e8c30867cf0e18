//! Rounds over a rota of seats against single calls. Arguments: seed, count of inputs.

use std::process::ExitCode;

use harness::held::run;
use harness::rota::Rounds;

fn main() -> ExitCode {
    run(Rounds::new())
}
