//! How long a check takes: document 01's listing, its question over the largest tables, each named
//! vector, and the longest of the inputs that the harness makes from seed 1, in nanoseconds and as multiples of the listing. Nothing is
//! asserted.

use std::hint::black_box;
use std::process::ExitCode;
use std::time::Duration;

use harness::calls::check;
use harness::columns::full_tables;
use harness::generate::generate;
use harness::lent::SCRATCH;
use harness::listing::listing;
use harness::recorded::{cases_in, Case};
use harness::timing::{fastest, fastest_of};

/// Scratch words up to the last one that a check uses (docs/DECISIONS.md); each call clears `SCRATCH`.
const USED: usize = 1808;

/// Inputs that are made, and how many of them are shown.
const MADE: u64 = 20_000;
const SHOWN: usize = 5;

fn main() -> ExitCode {
    let cases = match cases_in("crates/test_vectors") {
        Ok(cases) => cases,
        Err(what) => {
            eprintln!("{what}");
            return ExitCode::FAILURE;
        }
    };
    let mut scratch = vec![0; SCRATCH];
    let (data, question) = listing();
    let usual = fastest(|| check(&data, &[], &question, &mut scratch));
    let clearing = fastest(|| black_box(&mut scratch).fill(0));
    println!("a check uses at most {USED} scratch words, and clears {SCRATCH}");
    println!("      ns  listings");
    println!("{clearing:8.0}  {:8.2}  clearing alone", clearing / usual);
    println!("{usual:8.0}  {:8.2}  the listing", 1.0);
    for (by_column, kind) in [(false, "by row"), (true, "by column")] {
        let full = full_tables(by_column);
        let judged = fastest(|| check(&full, &[], &question, &mut scratch));
        println!(
            "{judged:8.0}  {:8.2}  its question over 8 tables of 1,024 x 8 cells {kind}",
            judged / usual
        );
    }
    let named = cases
        .into_iter()
        .filter(|case| !case.name.contains("/random-"));
    let mut measure = |case: Case| {
        let time = fastest(|| check(&case.data, &case.calendars, &case.question, &mut scratch));
        (time, case.name)
    };
    let mut times: Vec<_> = named.map(&mut measure).collect();
    times.extend(longest_made().into_iter().map(&mut measure));
    times.sort_by(|left, right| right.0.total_cmp(&left.0));
    for (time, name) in times {
        println!("{time:8.0}  {:8.2}  {name}", time / usual);
    }
    ExitCode::SUCCESS
}

/// The inputs whose check takes longest, by the best of a few runs.
fn longest_made() -> Vec<Case> {
    let mut scratch = vec![0; SCRATCH];
    let mut times: Vec<(Duration, u64)> = Vec::new();
    for index in 0..MADE {
        let input = generate(1, index);
        let call = || check(&input.data, &input.calendars, &input.question, &mut scratch);
        times.push((fastest_of(5, call), index));
    }
    times.sort();
    let case_of = |(_, index): (Duration, u64)| {
        let input = generate(1, index);
        Case {
            name: format!("input {index} ({:?})", input.family),
            data: input.data,
            calendars: input.calendars,
            question: input.question,
        }
    };
    times.into_iter().rev().take(SHOWN).map(case_of).collect()
}
