//! The two directions (document 02, E10), a record by row into one by column and back, against the second
//! evaluator or what was recorded: number, length, each byte of the target, and that each undoes the other.

use std::time::Instant;

use evaluator::Unknown;

use super::breaks::lone_record;
use super::calls::{self, Outcome};
use super::json::Json;
use super::lent::Lent;
use super::random::Random;
use super::recorded::read_lines;
use super::tally::{hex, Place, Tally};

/// "11; 12; 50; 43; 52".
const NUMBERS: [u64; 6] = [0, 11, 12, 50, 43, 52];

struct Direction {
    name: &'static str,
    made: fn(&[u8], &mut [u8]) -> Outcome,
    /// What the evaluator says of a record and a target of so many bytes.
    expected: fn(&[u8], usize) -> Result<(u32, Vec<u8>), Unknown>,
    /// The one that undoes it.
    back: fn(&[u8], &mut [u8]) -> Outcome,
}

const TO_COLUMNS: Direction = Direction {
    name: "to_columns",
    made: calls::table_to_columns,
    expected: evaluator::table_to_columns,
    back: calls::table_to_rows,
};

const TO_ROWS: Direction = Direction {
    name: "to_rows",
    made: calls::table_to_rows,
    expected: evaluator::table_to_rows,
    back: calls::table_to_columns,
};

const DIRECTIONS: [Direction; 2] = [TO_COLUMNS, TO_ROWS];

/// A recorded call, with what it must give.
pub struct Turned {
    /// The file's name without its ending, a slash, and the name in the file.
    pub name: String,
    direction: &'static Direction,
    record: Vec<u8>,
    target: usize,
    number: u64,
    length: u64,
    bytes: Vec<u8>,
}

/// The calls in the files of a folder.
pub fn turned_in(folder: &str) -> Result<Vec<Turned>, String> {
    read_lines(folder, Turned::of_line)
}

impl Turned {
    fn of_line(file: &str, line: &Json) -> Option<Turned> {
        let out = line.get("out")?;
        let call = line.get("call")?.text()?;
        Some(Turned {
            name: format!("{file}/{}", line.get("name")?.text()?),
            direction: DIRECTIONS.iter().find(|known| known.name == call)?,
            record: line.get("record")?.bytes()?,
            target: usize::try_from(line.get("target")?.unsigned()?).ok()?,
            number: out.get("number")?.unsigned()?,
            length: out.get("length")?.unsigned()?,
            bytes: out.get("bytes")?.bytes()?,
        })
    }
}

pub struct Directions {
    target: Lent<u8>,
    pub tally: Tally,
}

impl Directions {
    pub fn new(name: &'static str) -> Directions {
        Directions {
            target: Lent::new(),
            tally: Tally::new(name, NUMBERS.to_vec()),
        }
    }

    /// Holds evaluator and engine against a recorded call.
    pub fn recorded(&mut self, case: &Turned) {
        self.tally.inputs += 1;
        let known = Ok((case.number as u32, case.bytes.clone()));
        if (case.direction.expected)(&case.record, case.target) != known {
            self.tally.differs(&[&case.name, "by the evaluator"]);
        }
        let wanted = Outcome {
            number: case.number,
            length: case.length,
        };
        let held = Case {
            direction: case.direction,
            record: &case.record,
            place: (0, 0),
        };
        if let Err(what) = self.made(&held, case.target, wanted, &case.bytes, 0) {
            self.tally.differs(&[&case.name, &what]);
        }
    }

    /// Turns a made record in both directions, into targets around its length.
    pub fn input(&mut self, place: Place) {
        let mut random = Random::new(place.0, place.1);
        let record = lone_record(&mut random);
        for direction in &DIRECTIONS {
            self.tally.inputs += 1;
            let held = Case {
                direction,
                record: &record,
                place,
            };
            if let Err(what) = self.lengths(&held, &mut random) {
                let (seed, index) = place;
                let input = format!("record {index} of seed {seed}, {}", direction.name);
                self.tally.differs(&[&input, &what, &hex(&record)]);
            }
        }
    }

    fn lengths(&mut self, case: &Case, random: &mut Random) -> Result<(), String> {
        let whole = case.record.len();
        let (fewer, more) = (random.below(whole), whole + random.between(2, 100));
        for target in [0, fewer, whole.saturating_sub(1), whole, whole + 1, more] {
            let expected = (case.direction.expected)(case.record, target);
            let (number, bytes) = expected.map_err(|unknown| unknown.0.to_string())?;
            let wanted = Outcome {
                number: u64::from(number),
                length: bytes.len() as u64,
            };
            self.made(case, target, wanted, &bytes, random.next())
                .map_err(|what| format!("target of {target}: {what}"))?;
        }
        Ok(())
    }

    /// Makes the call between fences and on blocks of exactly these lengths, and turns back what it gave.
    fn made(
        &mut self,
        case: &Case,
        target: usize,
        wanted: Outcome,
        bytes: &[u8],
        salt: u64,
    ) -> Result<(), String> {
        let lent = self.target.lend(target, salt);
        let mut block = lent.to_vec();
        let start = Instant::now();
        let outcome = (case.direction.made)(case.record, lent);
        self.tally
            .called(outcome.number, start.elapsed(), case.place);
        let again = (case.direction.made)(&case.record.to_vec(), &mut block);
        if outcome != wanted || again != wanted {
            return Err(format!("{outcome:?} and {again:?}, should be {wanted:?}"));
        }
        if let Some(what) = self.target.differs(bytes, 0) {
            return Err(format!("after {} byte {what}", wanted.number));
        }
        if block != self.target.front(target) {
            return Err("another time other bytes".to_string());
        }
        if outcome.number == 0 {
            let mut back = vec![0; case.record.len()];
            let undone = (case.direction.back)(bytes, &mut back);
            if undone != wanted || back != case.record {
                return Err(format!("turned back: {undone:?}, {}", hex(&back)));
            }
        }
        Ok(())
    }
}

/// A record to be turned.
struct Case<'a> {
    direction: &'a Direction,
    record: &'a [u8],
    place: Place,
}
