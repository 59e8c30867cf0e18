//! How many rows answering may offer, read off the engine's own plan: a question for which they are
//! few is short to answer both ways, whatever the second evaluator makes of it.

use super::calls::plan_lines;
use super::generate::Input;
use super::lent::SCRATCH;
use super::nodes::{NUMBERED, NUMBER_AT, ROWS_AT};

/// Bytes that no plan's lines reach.
const MOST_BYTES: usize = 65_536;

/// An upper bound: every condition is taken to be met, and an empty table to have a row. 0 where
/// the question is refused.
pub fn most_offers(input: &Input) -> u64 {
    let mut bytes = vec![0; MOST_BYTES];
    let mut scratch = vec![0; SCRATCH];
    let planned = plan_lines(
        &input.data,
        &input.calendars,
        &input.question,
        &mut scratch,
        &mut bytes,
    );
    bytes.truncate(planned.length as usize);
    if planned.number != 0 {
        return 0;
    }
    offers_of(&String::from_utf8_lossy(&bytes), &rows_of(&input.data))
}

/// The rows of each table by its number; the data is known to be well formed.
fn rows_of(data: &[u8]) -> [u64; NUMBERED] {
    let two_bytes = |at: usize| u64::from(u16::from_le_bytes([data[at], data[at + 1]]));
    let mut rows = [0; NUMBERED];
    let mut at = 0;
    while at < data.len() {
        rows[usize::from(data[at + NUMBER_AT])] = two_bytes(at + ROWS_AT);
        at += 4 + two_bytes(at) as usize;
    }
    rows
}

fn offers_of(lines: &str, rows: &[u64]) -> u64 {
    // The rows of a stream of each width.
    let mut stream: Vec<u64> = vec![1];
    let mut offers: u64 = 0;
    for line in lines.lines() {
        let words: Vec<&str> = line.split(' ').collect();
        match words[..] {
            ["join" | "outer", table, ..] => {
                let stored = table.parse().ok().and_then(|table: usize| rows.get(table));
                let offered = stored.map_or(1, |rows| *rows.max(&1));
                let grown = stream[stream.len() - 1].saturating_mul(offered);
                stream.push(grown);
                offers = offers.saturating_add(grown);
            }
            ["nest", kept, ..] => {
                stream.truncate(kept.parse().map_or(1, |kept: usize| kept + 1));
                stream.push(stream[stream.len() - 1]);
            }
            _ => {}
        }
    }
    offers
}
