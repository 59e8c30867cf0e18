//! The desk program against the second evaluator, at its edges and over made inputs. Arguments:
//! seed, count of inputs.

use std::io::{ErrorKind, Write};
use std::process::{Command, ExitCode, Stdio};

use evaluator::Unknown;
use harness::arguments;
use harness::desk_edges::edges;
use harness::generate::generate;
use harness::lent::SCRATCH;
use harness::tally::{exit_code, Tally};

const DESK: &str = "target/bin/desk";

/// What may be printed in front: a plan, "too long", and the refusals that an input can reach. Its
/// data are whole records of kind 20 or 23, so it has no 11; it lends no calendar, so it has no 41, and a
/// question that asks for one is 42; its buffers are long enough for 31 and 33.
const FRONTS: [&str; 17] = [
    "one",
    "too long",
    "refused 12",
    "refused 13",
    "refused 50",
    "refused 51",
    "refused 43",
    "refused 21",
    "refused 22",
    "refused 23",
    "refused 24",
    "refused 25",
    "refused 42",
    "refused 26",
    "refused 27",
    "refused 28",
    "refused 32",
];

fn main() -> ExitCode {
    let [seed, count] = arguments("seed, count of inputs", [1, 2_000]);
    let mut tally = Tally::without_calendars("desk", FRONTS.map(String::from).to_vec());
    for (name, input) in edges() {
        // The evaluator gives up at none of them.
        if let Err(unknown) = compare(&mut tally, &name, &input) {
            tally.differs(&[&name, unknown.0]);
        }
    }
    for index in 0..count {
        let input = generate(seed, index);
        let bytes = [input.data, input.question].concat();
        if let Err(unknown) = compare(&mut tally, &format!("input {index}"), &bytes) {
            tally.skip(unknown.0);
        }
    }
    exit_code([&tally])
}

fn compare(tally: &mut Tally<String>, name: &str, input: &[u8]) -> Result<(), Unknown> {
    tally.inputs += 1;
    let expected = expected(input)?;
    let front = expected.lines().next().unwrap_or_default();
    tally.gave(front.to_string());
    if front == "one" {
        let (data, question) = input.split_at(tables_end(input));
        tally.answered(data, question);
    }
    let text = printed(input).unwrap_or_else(|error| error.to_string().into_bytes());
    if text != expected.as_bytes() {
        let printed = format!("printed {:?}", String::from_utf8_lossy(&text));
        tally.differs(&[name, &printed, &format!("should be {expected:?}")]);
    }
    Ok(())
}

/// What the desk prints. It may end before it has read all.
fn printed(input: &[u8]) -> std::io::Result<Vec<u8>> {
    let mut desk = Command::new(DESK)
        .stdin(Stdio::piped())
        .stdout(Stdio::piped())
        .spawn()?;
    if let Some(mut stdin) = desk.stdin.take() {
        match stdin.write_all(input) {
            Err(error) if error.kind() != ErrorKind::BrokenPipe => return Err(error),
            _ => {}
        }
    }
    Ok(desk.wait_with_output()?.stdout)
}

/// What it should print. E4: "the desk program lends no calendar".
fn expected(input: &[u8]) -> Result<String, Unknown> {
    if input.len() > 65_536 {
        return Ok("too long\n".to_string());
    }
    let (data, question) = input.split_at(tables_end(input));
    let answer = evaluator::by_loops(data, &[], question, SCRATCH, 4096)?;
    if answer.number != 0 {
        return Ok(format!("refused {}\n", answer.number));
    }
    let (_, lines) = evaluator::plan_lines(data, &[], question, SCRATCH, usize::MAX)?;
    let words: String = answer.words.iter().map(|word| format!(" {word}")).collect();
    Ok(format!(
        "{}answer{words}\n",
        String::from_utf8_lossy(&lines)
    ))
}

/// "Table records, then the question from the first record that is not a whole kind 20"; E10: "the desk
/// program's input take[s] kind 23 wherever" it names 20.
fn tables_end(input: &[u8]) -> usize {
    let mut end = 0;
    while let [low, high, 20 | 23, 0, rest @ ..] = &input[end..] {
        let length = usize::from(u16::from_le_bytes([*low, *high]));
        if length > rest.len() {
            break;
        }
        end += 4 + length;
    }
    end
}
