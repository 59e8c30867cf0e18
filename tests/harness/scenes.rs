//! Recorded scenes played with the engine's calls. Argument: the folder of their files.

use std::collections::BTreeMap;
use std::process::ExitCode;

use harness::scene::scenes_in;
use harness::tally::{exit_code, Tally};

/// What the calls of the scenes give.
const NUMBERS: [u64; 16] = [
    0, 11, 12, 41, 21, 22, 23, 24, 25, 42, 28, 31, 32, 47, 48, 49,
];

fn main() -> ExitCode {
    let folder = std::env::args().nth(1).unwrap_or_default();
    let scenes = match scenes_in(&folder) {
        Ok(scenes) => scenes,
        Err(what) => {
            eprintln!("argument: the folder of scenes ({what})");
            return ExitCode::FAILURE;
        }
    };
    let mut tally = Tally::new("scenes", NUMBERS.to_vec());
    let mut waiting: BTreeMap<&str, u64> = BTreeMap::new();
    for scene in &scenes {
        // A scene that waits for a request is no input of today's engine.
        if let Some(request) = &scene.waits_for {
            *waiting.entry(request).or_default() += 1;
            continue;
        }
        tally.inputs += 1;
        match scene.play() {
            Ok(numbers) => numbers.into_iter().for_each(|number| tally.gave(number)),
            Err(what) => tally.differs(&[&scene.name, &what]),
        }
    }
    println!("  waiting: {waiting:?}");
    exit_code([&tally])
}
