//! The example queries and the cases at the edges, as `tests/examples.py` writes them: the second
//! evaluator and the engine, both held against what was worked out by hand. Argument: the file.

use std::process::ExitCode;

use evaluator::Unknown;
use harness::compare::Comparison;
use harness::generate::{Family, Input};
use harness::held::Held;
use harness::open::{Reply, CHECK, LINES, LOOPS, PLAN};
use harness::recorded::bytes_of_hex;
use harness::tally::{exit_code, Tally};

fn main() -> ExitCode {
    let path = std::env::args().nth(1).unwrap_or_default();
    let text = match std::fs::read_to_string(&path) {
        Ok(text) => text,
        Err(error) => {
            eprintln!("argument: the file of cases ({path}: {error})");
            return ExitCode::FAILURE;
        }
    };
    let mut held = Calls::new();
    let mut examples = Tally::of_questions("examples", CHECK.numbers());
    for line in text.lines() {
        examples.inputs += 1;
        let Some(example) = Example::of_line(line) else {
            examples.differs(&[line, "is no case"]);
            continue;
        };
        examples.gave(u64::from(example.number));
        if example.number == 0 {
            examples.answered(&example.data, &example.question);
        }
        if let Err(what) = example.compare(&mut held) {
            examples.differs(&[&example.name, &what]);
        }
    }
    exit_code(held.tallies().into_iter().chain([&examples]))
}

/// The open calls, each with what it gave so far.
struct Calls {
    check: Comparison<'static, i64>,
    loops: Comparison<'static, i64>,
    plan: Comparison<'static, i64>,
    lines: Comparison<'static, u8>,
}

impl Calls {
    fn new() -> Calls {
        Calls {
            check: Comparison::new(&CHECK),
            loops: Comparison::new(&LOOPS),
            plan: Comparison::new(&PLAN),
            lines: Comparison::new(&LINES),
        }
    }

    fn tallies(&mut self) -> [&Tally; 4] {
        [
            self.check.tally(),
            self.loops.tally(),
            self.plan.tally(),
            self.lines.tally(),
        ]
    }
}

/// A case with what it must give.
struct Example {
    name: String,
    scratch: usize,
    data: Vec<u8>,
    calendars: Vec<u8>,
    question: Vec<u8>,
    number: u32,
    /// What is behind here is empty at a refusal.
    greatest: usize,
    words: Vec<i64>,
    plan: String,
}

impl Example {
    /// Fields separated by a tab; `-` stands for nothing.
    fn of_line(line: &str) -> Option<Example> {
        let mut fields = line.split('\t');
        let mut next = || {
            fields
                .next()
                .map(|field| if field == "-" { "" } else { field })
        };
        Some(Example {
            name: next()?.to_string(),
            scratch: next()?.parse().ok()?,
            data: bytes_of_hex(next()?)?,
            calendars: bytes_of_hex(next()?)?,
            question: bytes_of_hex(next()?)?,
            number: next()?.parse().ok()?,
            greatest: next().map(|field| field.parse().unwrap_or(0))?,
            words: words_of(next()?)?,
            plan: next()?.replace("\\n", "\n"),
        })
    }

    fn compare(&self, calls: &mut Calls) -> Result<(), String> {
        let given_up = |unknown: Unknown| format!("evaluator: {}", unknown.0);
        self.compare_evaluator().map_err(given_up)??;
        let mut written = self.words.clone();
        written.resize(self.greatest, 0);
        let lines = Reply {
            number: u64::from(self.number),
            length: self.plan.len() as u64,
            written: self.plan.clone().into_bytes(),
        };
        let input = Input {
            family: Family::WellTyped,
            data: self.data.clone(),
            calendars: self.calendars.clone(),
            question: self.question.clone(),
            tariff: Vec::new(),
            table: 0,
        };
        let (checked, answered) = (self.reply(Vec::new()), self.reply(written));
        calls.check.hold(&input, &checked, self.scratch)?;
        calls.loops.hold(&input, &answered, self.scratch)?;
        calls.plan.hold(&input, &answered, self.scratch)?;
        calls.lines.hold(&input, &lines, self.scratch)
    }

    fn compare_evaluator(&self) -> Result<Result<(), String>, Unknown> {
        let (data, calendars) = (&self.data[..], &self.calendars[..]);
        let (question, scratch) = (&self.question[..], self.scratch);
        let checked = evaluator::check(data, calendars, question, scratch)?;
        let loops = evaluator::by_loops(data, calendars, question, scratch, u64::MAX)?;
        let plan = evaluator::by_plan(data, calendars, question, scratch, u64::MAX)?;
        let (number, lines) =
            evaluator::plan_lines(data, calendars, question, scratch, usize::MAX)?;
        let numbers = [checked.0, loops.number, plan.number, number];
        let greatest = self.greatest as u64;
        Ok(all_hold(&[
            ("number", numbers == [self.number; 4]),
            ("words by loops", loops.words == self.words),
            ("words by plan", plan.words == self.words),
            ("G", [loops.greatest, plan.greatest] == [greatest; 2]),
            ("plan", lines == self.plan.as_bytes()),
        ]))
    }

    fn reply(&self, written: Vec<i64>) -> Reply<i64> {
        Reply {
            number: u64::from(self.number),
            length: self.words.len().min(written.len()) as u64,
            written,
        }
    }
}

fn words_of(text: &str) -> Option<Vec<i64>> {
    text.split_whitespace()
        .map(|word| word.parse().ok())
        .collect()
}

fn all_hold(claims: &[(&str, bool)]) -> Result<(), String> {
    match claims.iter().find(|(_, holds)| !holds) {
        None => Ok(()),
        Some((what, _)) => Err(format!("evaluator: another {what} than by hand")),
    }
}
