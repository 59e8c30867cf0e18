//! Two logs paired (document 02, E11) against the second evaluator or what was recorded: number, length and
//! each byte of the target; and that no pairing within the tolerance has more pairs.

use std::time::Instant;

use super::breaks::{beyond_bounds, broken_data, broken_numbers};
use super::by_column::{all_turned, MOST_ROWS};
use super::calls::{self, Outcome};
use super::json::Json;
use super::lent::Lent;
use super::nodes::*;
use super::numbers::Numbers;
use super::random::Random;
use super::recorded::read_lines;
use super::tally::{hex, Place, Tally};

/// The data's, then "53 ..; 54 ..; then 52 .. in that order".
const NUMBERS: [u64; 10] = [0, 11, 12, 13, 50, 51, 43, 53, 54, 52];

/// "a tolerance of 0 to 3,600 seconds".
const MOST_TOLERANCE: u64 = 3600;

/// Rows of the longest logs of which all pairings are sought.
const SOUGHT: usize = 40;

/// What is asked: data, the numbers of two tables, a tolerance.
struct Asked {
    data: Vec<u8>,
    first: u64,
    second: u64,
    tolerance: u64,
}

/// A recorded call, with what it must give.
pub struct Recorded {
    /// The file's name without its ending, a slash, and the name in the file.
    name: String,
    asked: Asked,
    target: usize,
    number: u64,
    length: u64,
    bytes: Vec<u8>,
}

/// The calls in the files of a folder.
pub fn paired_in(folder: &str) -> Result<Vec<Recorded>, String> {
    read_lines(folder, Recorded::of_line)
}

impl Recorded {
    fn of_line(file: &str, line: &Json) -> Option<Recorded> {
        let out = line.get("out")?;
        Some(Recorded {
            name: format!("{file}/{}", line.get("name")?.text()?),
            asked: Asked {
                data: line.get("data")?.bytes()?,
                first: line.get("first")?.unsigned()?,
                second: line.get("second")?.unsigned()?,
                tolerance: line.get("tolerance")?.unsigned()?,
            },
            target: usize::try_from(line.get("target")?.unsigned()?).ok()?,
            number: out.get("number")?.unsigned()?,
            length: out.get("length")?.unsigned()?,
            bytes: out.get("bytes")?.bytes()?,
        })
    }
}

pub struct Pairing {
    target: Lent<u8>,
    pub tally: Tally,
}

impl Pairing {
    pub fn new(name: &'static str) -> Pairing {
        Pairing {
            target: Lent::new(),
            tally: Tally::new(name, NUMBERS.to_vec()),
        }
    }

    /// Holds evaluator and engine against a recorded call.
    pub fn recorded(&mut self, case: &Recorded) {
        self.tally.inputs += 1;
        let known = (case.number, case.bytes.clone());
        if expected(&case.asked, case.target) != Ok(known) {
            self.tally.differs(&[&case.name, "by the evaluator"]);
        }
        let wanted = Outcome {
            number: case.number,
            length: case.length,
        };
        let place = (0, 0);
        if let Err(what) = self.made(&case.asked, case.target, wanted, &case.bytes, place, 0) {
            self.tally.differs(&[&case.name, &what]);
        }
    }

    /// Pairs two made logs into targets around the length of the three records.
    pub fn input(&mut self, place: Place) {
        let mut random = Random::new(place.0, place.1);
        let asked = asked(&mut random);
        self.tally.inputs += 1;
        if let Err(what) = self.lengths(&asked, place, &mut random) {
            let (seed, index) = place;
            let input = format!(
                "logs {index} of seed {seed}: {} and {}, tolerance {}",
                asked.first, asked.second, asked.tolerance
            );
            self.tally.differs(&[&input, &what, &hex(&asked.data)]);
        }
    }

    fn lengths(&mut self, asked: &Asked, place: Place, random: &mut Random) -> Result<(), String> {
        let (number, whole) = expected(asked, usize::MAX)?;
        let long = whole.len();
        let (fewer, more) = (random.below(long), long + random.between(2, 100));
        for target in [0, fewer, long.saturating_sub(1), long, long + 1, more] {
            let (number, bytes) = expected(asked, target)?;
            let wanted = Outcome {
                number,
                length: bytes.len() as u64,
            };
            self.made(asked, target, wanted, &bytes, place, random.next())
                .map_err(|what| format!("target of {target}: {what}"))?;
        }
        if number == 0 {
            most_pairs(asked, &whole)?;
            self.read_again(asked, &whole, place)?;
        }
        Ok(())
    }

    /// Makes the call between fences and on blocks of exactly these lengths, and once more over the same
    /// tables in the other kind.
    fn made(
        &mut self,
        asked: &Asked,
        target: usize,
        wanted: Outcome,
        bytes: &[u8],
        place: Place,
        salt: u64,
    ) -> Result<(), String> {
        let lent = self.target.lend(target, salt);
        let mut block = lent.to_vec();
        let mut turned = lent.to_vec();
        let start = Instant::now();
        let outcome = call(asked, &asked.data, lent);
        self.tally.called(outcome.number, start.elapsed(), place);
        let again = call(asked, &asked.data.to_vec(), &mut block);
        let by_other = call(asked, &all_turned(&asked.data), &mut turned);
        if outcome != wanted || again != wanted || by_other != wanted {
            return Err(format!(
                "{outcome:?}, {again:?} and in the other kind {by_other:?}, should be {wanted:?}"
            ));
        }
        if let Some(what) = self.target.differs(bytes, 0) {
            return Err(format!("after {} byte {what}", wanted.number));
        }
        if block != self.target.front(target) || turned != block {
            return Err("another time other bytes".to_string());
        }
        Ok(())
    }

    /// The three records are data: the singles of both logs are lists that rise, and pair by their positions.
    fn read_again(&mut self, asked: &Asked, bytes: &[u8], place: Place) -> Result<(), String> {
        let singles = Asked {
            data: bytes.to_vec(),
            first: 6,
            second: 7,
            tolerance: asked.tolerance,
        };
        let (number, again) = expected(&singles, usize::MAX)?;
        if number != 0 {
            return Err(format!("what was written is refused by {number}"));
        }
        let wanted = Outcome {
            number: 0,
            length: again.len() as u64,
        };
        self.made(&singles, again.len(), wanted, &again, place, 1)
            .map_err(|what| format!("what was written, lent as data: {what}"))
    }
}

fn call(asked: &Asked, data: &[u8], target: &mut [u8]) -> Outcome {
    calls::pair_logs(data, asked.first, asked.second, asked.tolerance, target)
}

/// What the evaluator says of a target of so many bytes.
fn expected(asked: &Asked, target: usize) -> Result<(u64, Vec<u8>), String> {
    let Asked {
        data,
        first,
        second,
        tolerance,
    } = asked;
    match evaluator::pair_logs(data, *first, *second, *tolerance, target) {
        Ok((number, bytes)) => Ok((u64::from(number), bytes)),
        Err(unknown) => Err(unknown.0.to_string()),
    }
}

/// "No pairing within the tolerance has more pairs": as many as augmenting paths find, where the logs are not
/// too long for that.
fn most_pairs(asked: &Asked, bytes: &[u8]) -> Result<(), String> {
    let (Some(first), Some(second)) = (
        seconds_of(&asked.data, asked.first),
        seconds_of(&asked.data, asked.second),
    ) else {
        return Err("answered over no table".to_string());
    };
    if first.len() > SOUGHT || second.len() > SOUGHT {
        return Ok(());
    }
    let near =
        |i: usize, j: usize| i64::from(first[i]).abs_diff(i64::from(second[j])) <= asked.tolerance;
    let mut partner = vec![None; second.len()];
    let mut most = 0;
    for i in 0..first.len() {
        let mut seen = vec![false; second.len()];
        if augmented(i, &near, &mut partner, &mut seen) {
            most += 1;
        }
    }
    let pairs = usize::from(u16::from_le_bytes([bytes[ROWS_AT], bytes[ROWS_AT + 1]]));
    if pairs == most {
        Ok(())
    } else {
        Err(format!("{pairs} pairs, {most} are possible"))
    }
}

/// Finds row i a partner, where need be by finding its partner's another one.
fn augmented(
    i: usize,
    near: &impl Fn(usize, usize) -> bool,
    partner: &mut [Option<usize>],
    seen: &mut [bool],
) -> bool {
    for j in 0..partner.len() {
        if near(i, j) && !std::mem::replace(&mut seen[j], true) {
            let free = match partner[j] {
                None => true,
                Some(other) => augmented(other, near, partner, seen),
            };
            if free {
                partner[j] = Some(i);
                return true;
            }
        }
    }
    false
}

/// Column 0 of the table of that number.
fn seconds_of(data: &[u8], number: u64) -> Option<Vec<i32>> {
    let mut left = data;
    while let Some((table, own, end)) = Stored::at_front(left) {
        if u64::from(own) == number {
            return Some(table.rows.iter().map(|row| row[0]).collect());
        }
        left = &left[end..];
    }
    None
}

/// Two logs among other tables, now and then broken data, another table, one log twice, or a tolerance out of
/// its range.
fn asked(random: &mut Random) -> Asked {
    let beyond = [MOST_TOLERANCE + 1, 1 << 32, u64::MAX, random.next()];
    let within = random.below(MOST_TOLERANCE as usize + 1) as u64;
    let tolerance = match random.below(12) {
        0 => random.one_of(&beyond, u64::MAX),
        1 | 2 => 0,
        3 => MOST_TOLERANCE,
        4..=7 => within % 20,
        _ => within,
    };
    let start = some_second(random);
    let count = random.between(1, 4);
    let mut tables = Vec::new();
    for _ in 0..count.max(2) {
        tables.push(log(random, start, tolerance.min(MOST_TOLERANCE) as i64));
    }
    let numbers = Numbers::random(random);
    let data = match random.below(24) {
        0 => broken_data(random, numbers, &tables),
        1 => beyond_bounds(random, numbers, &tables),
        2 => broken_numbers(random, numbers, &tables),
        _ => numbers.data(&tables),
    };
    // The places that the records have: the logs' numbers, where the data is whole.
    let number_at = |place: usize| {
        let records = numbers.records(&tables);
        u64::from(records[place][NUMBER_AT])
    };
    let (mut first, mut second) = (number_at(0), number_at(1));
    match random.below(16) {
        0 => second = first,
        1 => first = random.one_of(&[8, 255, 256, 1 << 32, u64::MAX], 8),
        2 => second = random.below(9) as u64,
        3 => std::mem::swap(&mut first, &mut second),
        _ => {}
    }
    Asked {
        data,
        first,
        second,
        tolerance,
    }
}

/// A second from which both logs go on: any, often near 0 or an end of 32 bits.
fn some_second(random: &mut Random) -> i64 {
    let any = i64::from(random.next() as i32);
    let near_an_end = random.below(10_000) as i64;
    match random.below(6) {
        0 => i64::from(i32::MIN) + near_an_end,
        1 => i64::from(i32::MAX) - near_an_end,
        2 => any,
        _ => near_an_end - 5_000,
    }
}

/// A list whose times go on from about there in steps around the tolerance; now and then they fall, or it is no
/// list.
fn log(random: &mut Random, start: i64, tolerance: i64) -> Stored {
    let count = random.one_of(&[0, 1, 2, 3, 3, 5, 8, 13, 20, 20, 40, 100, MOST_ROWS], 3);
    let columns = random.one_of(&[1, 1, 1, 2, 3, 8], 1);
    let step = random.one_of(&[0, 1, tolerance, tolerance + 1, 2 * tolerance + 2], 1);
    let mut now = start + random.below(2 * tolerance as usize + 3) as i64;
    let mut rows = Vec::new();
    for _ in 0..count {
        let time = now.clamp(i64::from(i32::MIN), i64::from(i32::MAX)) as i32;
        let mut row = vec![time];
        row.extend((1..columns).map(|_| random.next() as i32));
        rows.push(row);
        now += match random.below(20) {
            0 => 1_000_000_000,
            1 | 2 => 0,
            _ => random.below(step as usize + 2) as i64,
        };
    }
    if count > 1 && random.chance(4) {
        let fallen = random.between(1, count - 1);
        rows[fallen][0] = rows[fallen - 1][0].saturating_sub(1 + random.below(10) as i32);
    }
    let collection = match random.below(40) {
        0 => BAG,
        1 => SET,
        _ => LIST,
    };
    Stored {
        by_column: random.chance(40),
        ..Stored::wide(collection, columns, rows)
    }
}
