//! The comparisons of two elements that an answer takes (`dislogha_comparisons`, in an archive of its own): on recorded questions
//! they are at most 3 n times the binary digits of n, added up over all ordering steps, and for n elements at least n - 1. The words
//! are those recorded. Argument: the folder of the recorded questions.

use std::process::ExitCode;

use harness::json::Json;
use harness::lent::{Lent, SCRATCH};
use harness::open_call;
use harness::recorded::read_lines;
use harness::tally::{exit_code, Tally};

open_call!("test_comparisons", dislogha_comparisons as comparisons: scratch of u64, answer of i64);

/// What the questions give.
const NUMBERS: [u64; 1] = [0];

/// A question, its answer, and how many elements each ordering step has.
struct Ordered {
    name: String,
    data: Vec<u8>,
    question: Vec<u8>,
    answer: usize,
    words: Vec<i64>,
    steps: Vec<u64>,
}

impl Ordered {
    fn of_line(file: &str, line: &Json) -> Option<Ordered> {
        Some(Ordered {
            name: format!("{file}/{}", line.get("name")?.text()?),
            data: line.get("data")?.bytes()?,
            question: line.get("question")?.bytes()?,
            answer: usize::try_from(line.get("answer")?.unsigned()?).ok()?,
            words: line.get("words")?.words()?,
            steps: line.get("steps")?.each(Json::unsigned)?,
        })
    }

    /// What is wrong with the number, the words or the count.
    fn held(&self) -> Result<u64, String> {
        let (mut scratch, mut answer) = (Lent::<u64>::new(), Lent::<i64>::new());
        let lent = answer.lend(self.answer, 1);
        let reply = comparisons(
            &self.data,
            &[],
            &self.question,
            scratch.lend(SCRATCH, 2),
            lent,
        );
        if reply.number != 0 {
            return Ok(reply.number);
        }
        if lent.get(..self.words.len()) != Some(&self.words[..]) {
            return Err(format!("words {:?}", lent));
        }
        let digits = |n: u64| u64::from(u64::BITS - n.leading_zeros());
        let most: u64 = self.steps.iter().map(|&n| 3 * n * digits(n)).sum();
        let least: u64 = self.steps.iter().map(|&n| n.saturating_sub(1)).sum();
        match reply.length {
            count if least <= count && count <= most => Ok(0),
            count => Err(format!("{count} comparisons, not {least} to {most}")),
        }
    }
}

fn main() -> ExitCode {
    let folder = std::env::args().nth(1).unwrap_or_default();
    let questions = match read_lines(&folder, Ordered::of_line) {
        Ok(questions) => questions,
        Err(what) => {
            eprintln!("argument: the folder of recorded questions ({what})");
            return ExitCode::FAILURE;
        }
    };
    let mut tally = Tally::new("comparisons", NUMBERS.to_vec());
    for question in &questions {
        tally.inputs += 1;
        match question.held() {
            Ok(number) => tally.gave(number),
            Err(what) => tally.differs(&[&question.name, &what]),
        }
    }
    exit_code([&tally])
}
