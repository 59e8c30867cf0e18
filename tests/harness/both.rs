//! Both ways of answering against each other. Arguments: seed, count of inputs.

use std::process::ExitCode;

use harness::held::run;
use harness::ways::Ways;

fn main() -> ExitCode {
    run(Ways::new())
}
