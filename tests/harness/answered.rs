//! Recorded calls that answer in words beside the four of document 01: evaluator and engine against number,
//! length and each word of the buffer.

use evaluator::{Answer, Unknown};

use super::compare::Comparison;
use super::generate::{Family, Input};
use super::json::Json;
use super::open::Call;
use super::recorded::{bytes_or_none, read_lines};
use super::scene::words_of;
use super::tally::Tally;

/// A recorded call, with what it must give.
pub struct Recorded {
    /// The file's name without its ending, a slash, and the name in the file.
    name: String,
    pub input: Input,
    /// Words that are lent.
    pub scratch: usize,
    pub answer: usize,
    pub number: u64,
    pub length: u64,
    pub words: Vec<i64>,
}

/// What the evaluator says of an input, so many words of scratch and of answer.
pub type Evaluated = fn(&Input, usize, u64) -> Result<Answer, Unknown>;

/// Holds evaluator and engine against the calls in the files of a folder, which give these numbers.
pub fn recorded(
    name: &'static str,
    folder: &str,
    known: &[u64],
    call: &Call<i64>,
    evaluated: Evaluated,
) -> Tally {
    let mut held = Comparison::on_blocks(call);
    let mut tally = Tally::new(name, known.to_vec());
    let cases = read_lines(folder, Recorded::of_line).unwrap_or_else(|what| {
        tally.differs(&[&what]);
        Vec::new()
    });
    for case in &cases {
        tally.inputs += 1;
        tally.gave(case.number);
        let said = evaluated(&case.input, case.scratch, case.answer as u64);
        let said = said.map(|answer| (u64::from(answer.number), answer.length, answer.words));
        if said != Ok((case.number, case.length, case.words.clone())) {
            tally.differs(&[&case.name, &format!("by the evaluator {said:?}")]);
        }
        if let Err(what) = held.recorded(case) {
            tally.differs(&[&case.name, &what]);
        }
    }
    tally
}

impl Recorded {
    fn of_line(file: &str, line: &Json) -> Option<Recorded> {
        let out = line.get("out")?;
        Some(Recorded {
            name: format!("{file}/{}", line.get("name")?.text()?),
            input: Input {
                family: Family::WellTyped,
                data: line.get("data")?.bytes()?,
                calendars: bytes_or_none(line.get("calendars"))?,
                question: line.get("question")?.bytes()?,
                tariff: bytes_or_none(line.get("tariff"))?,
                table: line.get("table").map_or(Some(0), Json::unsigned)?,
            },
            scratch: words_of(line.get("scratch")?)?,
            answer: usize::try_from(line.get("answer")?.unsigned()?).ok()?,
            number: out.get("number")?.unsigned()?,
            length: out.get("length")?.unsigned()?,
            words: out.get("words")?.words()?,
        })
    }
}
