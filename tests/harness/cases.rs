//! Makes the files of the program `test_vectors` from recorded vectors: the cases that it reads, the
//! lines that it must print, and the cases' names. Argument: the folder of the crate; with --check
//! behind it nothing is written, and it fails where a file is not what would be.

use std::process::ExitCode;

use harness::recorded::{recorded_in, Recorded};

fn main() -> ExitCode {
    match make() {
        Ok(()) => ExitCode::SUCCESS,
        Err(what) => {
            eprintln!("{what}");
            ExitCode::FAILURE
        }
    }
}

fn make() -> Result<(), String> {
    let mut arguments = std::env::args().skip(1);
    let folder = &arguments.next().ok_or("argument: a crate's folder")?;
    let put = match arguments.next().as_deref() {
        None => write,
        Some("--check") => compare,
        Some(other) => return Err(format!("second argument: --check, not {other}")),
    };
    let vectors = recorded_in(folder)?;
    let cases: Result<Vec<_>, String> = vectors.iter().map(case_of).collect();
    put(folder, "data/cases", &cases?.concat())?;
    let lines = (0..)
        .zip(&vectors)
        .map(|(place, vector)| line_of(place, vector));
    put(folder, "stdout", lines.collect::<String>().as_bytes())?;
    let names = vectors.iter().map(|vector| format!("{}\n", vector.name));
    put(folder, "names", names.collect::<String>().as_bytes())?;
    println!("cases: {} in {folder}", vectors.len());
    Ok(())
}

/// Whether the outcome is known; where it is not, loops and plan are too long for any engine.
fn known(vector: &Recorded) -> bool {
    vector.check != 0 || vector.words.is_some()
}

/// One byte that says whether the answer is known, three lengths of two bytes, data, calendars, question.
fn case_of(vector: &Recorded) -> Result<Vec<u8>, String> {
    let mut bytes = vec![u8::from(known(vector))];
    let parts = [&vector.data, &vector.calendars, &vector.question];
    for part in parts {
        let length = u16::try_from(part.len()).map_err(|_| format!("{}: long", vector.name))?;
        bytes.extend(length.to_le_bytes());
    }
    bytes.extend(parts.into_iter().flatten());
    Ok(bytes)
}

/// The place and the check number; where it is known the number, length and words, by loops and again
/// by plan. Then the plan's lines of an accepted question.
fn line_of(place: u64, vector: &Recorded) -> String {
    let mut line = format!("{place} {}", vector.check);
    if known(vector) {
        let words = vector.words.as_deref().unwrap_or_default();
        let mut reply = format!(" {} {}", vector.check, words.len());
        reply.extend(words.iter().map(|word| format!(" {word}")));
        line.push_str(&reply.repeat(2));
    }
    line.push('\n');
    line.push_str(vector.plan.as_deref().unwrap_or_default());
    line
}

fn write(folder: &str, name: &str, bytes: &[u8]) -> Result<(), String> {
    let path = format!("{folder}/{name}");
    std::fs::write(&path, bytes).map_err(|error| format!("{path}: {error}"))
}

fn compare(folder: &str, name: &str, bytes: &[u8]) -> Result<(), String> {
    let path = format!("{folder}/{name}");
    match std::fs::read(&path) {
        Ok(found) if found == bytes => Ok(()),
        Ok(_) => Err(format!("{path} is not made from the recorded vectors")),
        Err(error) => Err(format!("{path}: {error}")),
    }
}
