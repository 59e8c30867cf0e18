//! All open calls against the second evaluator, both ways of answering against each other, portions and
//! rounds against the single call, with one seed after another until the time is over. Arguments: minutes, first seed.

use std::process::ExitCode;
use std::sync::atomic::{AtomicU64, Ordering};
use std::thread;
use std::time::{Duration, Instant};

use harness::arguments;
use harness::compare::Comparison;
use harness::held::{inputs_of, Held};
use harness::open::{CHECK, LINES, LOOPS, OUTAGES, PLAN, TARIFF};
use harness::portioned::Portions;
use harness::rota::Rounds;
use harness::tally::{exit_code, Tally};
use harness::ways::Ways;

/// Inputs made of one seed.
const INPUTS: u64 = 1_000;

fn main() -> ExitCode {
    let [minutes, first] = arguments("minutes, first seed", [60, 2]);
    let end = Instant::now() + Duration::from_secs(60 * minutes);
    let seeds = AtomicU64::new(first);
    let totals = totals_of(&seeds, end);
    println!("seeds from {first} to before {}", seeds.into_inner());
    exit_code(&totals)
}

/// What each call counts, over all processors.
fn totals_of(seeds: &AtomicU64, end: Instant) -> Vec<Tally> {
    let processors = thread::available_parallelism().map_or(1, usize::from);
    thread::scope(|scope| {
        let spawn = |_| scope.spawn(|| tallies_until(seeds, end));
        let threads: Vec<_> = (0..processors).map(spawn).collect();
        let each = threads
            .into_iter()
            .map(|thread| thread.join().expect("a thread ends"));
        each.reduce(merged).unwrap_or_default()
    })
}

fn merged(mut totals: Vec<Tally>, tallies: Vec<Tally>) -> Vec<Tally> {
    for (total, tally) in totals.iter_mut().zip(tallies) {
        total.merge(tally);
    }
    totals
}

/// Takes seeds until the time is over.
fn tallies_until(seeds: &AtomicU64, end: Instant) -> Vec<Tally> {
    let (mut check, mut loops) = (Comparison::new(&CHECK), Comparison::new(&LOOPS));
    let (mut plan, mut lines) = (Comparison::new(&PLAN), Comparison::new(&LINES));
    let (mut tariff, mut outages) = (Comparison::new(&TARIFF), Comparison::new(&OUTAGES));
    let (mut both, mut portions, mut rounds) = (Ways::new(), Portions::new(), Rounds::new());
    let mut held: [&mut dyn Held; 9] = [
        &mut check,
        &mut loops,
        &mut plan,
        &mut lines,
        &mut tariff,
        &mut outages,
        &mut both,
        &mut portions,
        &mut rounds,
    ];
    while Instant::now() < end {
        inputs_of(seeds.fetch_add(1, Ordering::Relaxed), INPUTS, &mut held);
    }
    held.map(|held| std::mem::take(held.tally())).into()
}
