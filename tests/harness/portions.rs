//! Answering by plan in portions against the single call. Arguments: seed, count of inputs.

use std::process::ExitCode;

use harness::held::run;
use harness::portioned::Portions;

fn main() -> ExitCode {
    run(Portions::new())
}
