//! Portions over what was changed in between. Arguments: seed, count of portions.

use std::process::ExitCode;
use std::sync::atomic::{AtomicU64, Ordering};
use std::thread;
use std::time::Duration;

use harness::arguments;
use harness::damaged::Damage;
use harness::tally::exit_code;

/// "Only safety and an end are promised": a round that takes so long is taken for one without end.
const LONGEST: Duration = Duration::from_secs(60);

static ROUNDS: AtomicU64 = AtomicU64::new(0);

fn main() -> ExitCode {
    let [seed, count] = arguments("seed, count of portions", [1, 1_000_000]);
    thread::spawn(watch);
    let mut damage = Damage::new();
    while damage.tally.inputs < count {
        damage.round((seed, ROUNDS.fetch_add(1, Ordering::Relaxed)));
    }
    exit_code([&damage.tally])
}

fn watch() {
    loop {
        let before = ROUNDS.load(Ordering::Relaxed);
        thread::sleep(LONGEST);
        if ROUNDS.load(Ordering::Relaxed) == before {
            println!("damage: FAILED, no end in round {}", before - 1);
            std::process::exit(1);
        }
    }
}
