//! How long planning takes: the recorded questions whose plans have the most bytes, in nanoseconds of
//! the plan call, beside their check. Nothing is asserted.

use std::process::ExitCode;

use harness::calls::{check, plan_lines};
use harness::lent::SCRATCH;
use harness::recorded::{cases_in, Case};
use harness::timing::fastest;

/// Bytes that are lent for a plan's lines, and how many plans are shown.
const LENT: usize = 16_384;
const SHOWN: usize = 5;

fn main() -> ExitCode {
    let mut cases = match cases_in("crates/test_vectors") {
        Ok(cases) => cases,
        Err(what) => {
            eprintln!("{what}");
            return ExitCode::FAILURE;
        }
    };
    let mut scratch = vec![0; SCRATCH];
    let mut text = vec![0; LENT];
    let mut planned = |case: &Case| {
        let Case {
            data,
            calendars,
            question,
            ..
        } = case;
        plan_lines(data, calendars, question, &mut scratch, &mut text).length
    };
    cases.sort_by_cached_key(|case| std::cmp::Reverse(planned(case)));
    println!("   bytes        ns    checks  plan of");
    for case in cases.iter().take(SHOWN) {
        let bytes = planned(case);
        let times = fastest(|| planned(case));
        println!(
            "{bytes:8}  {times:8.0}  {:8.2}  {}",
            times / checked_in(case),
            case.name
        );
    }
    ExitCode::SUCCESS
}

/// Nanoseconds of a check.
fn checked_in(case: &Case) -> f64 {
    let mut scratch = vec![0; SCRATCH];
    fastest(|| check(&case.data, &case.calendars, &case.question, &mut scratch))
}
