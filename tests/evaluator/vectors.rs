//! Compares the evaluator with the recorded vectors. The folder of the crate that has them is the only
//! argument.

use std::process::ExitCode;

use evaluator::{by_loops, by_plan, check, normal_form_holds, plan_lines, Unknown};
use harness::open::NUMBERS;
use harness::recorded::{recorded_in, Recorded};
use harness::tally::{exit_code, Tally};

/// Scratch words that are enough.
const ENOUGH: usize = 2048;

fn main() -> ExitCode {
    let folder = std::env::args().nth(1);
    let folder = folder.ok_or("argument: a crate's folder".to_string());
    match folder.and_then(|folder| recorded_in(&folder)) {
        Ok(vectors) => compare_all(&vectors),
        Err(what) => {
            eprintln!("{what}");
            ExitCode::FAILURE
        }
    }
}

fn compare_all(vectors: &[Recorded]) -> ExitCode {
    // No recorded question is refused by its length.
    let recorded = NUMBERS.into_iter().filter(|number| *number != 21);
    let mut tally = Tally::of_questions("vectors", recorded.collect());
    for vector in vectors {
        tally.inputs += 1;
        tally.gave(u64::from(vector.check));
        if vector.check == 0 {
            tally.answered(&vector.data, &vector.question);
        }
        let mut found = Vec::new();
        let compared = compare(vector, &mut found);
        if compared.is_err_and(|unknown| unknown.is_fault()) {
            found.push("fault of the evaluator".to_string());
        }
        if !found.is_empty() {
            tally.differs(&[&vector.name, &found.join("; ")]);
        } else if let Err(Unknown(reason)) = compared {
            tally.skip(reason);
        }
    }
    exit_code([&tally])
}

/// Notes what differs, up to the first call at which the evaluator gives up.
fn compare(vector: &Recorded, found: &mut Vec<String>) -> Result<(), Unknown> {
    note(
        found,
        "scratch",
        &check(
            &vector.data,
            &vector.calendars,
            &vector.question,
            ENOUGH - 1,
        )?,
        &(31, 0),
    );
    note(
        found,
        "check",
        &check(&vector.data, &vector.calendars, &vector.question, ENOUGH)?,
        &(vector.check, 0),
    );
    note(
        found,
        "rules",
        &normal_form_holds(&vector.data, &vector.calendars, &vector.question)?,
        &true,
    );
    compare_plan(vector, found)?;
    if vector.check != 0 || vector.greatest.is_some() {
        compare_answers(vector, found)?;
    }
    Ok(())
}

fn compare_plan(vector: &Recorded, found: &mut Vec<String>) -> Result<(), Unknown> {
    let lines_in = |bytes: usize| {
        plan_lines(
            &vector.data,
            &vector.calendars,
            &vector.question,
            ENOUGH,
            bytes,
        )
    };
    let (number, lines) = lines_in(usize::MAX)?;
    note(found, "plan number", &number, &vector.check);
    let Some(plan) = &vector.plan else {
        return Ok(());
    };
    note(
        found,
        "plan",
        &String::from_utf8_lossy(&lines).into_owned(),
        plan,
    );
    let short = lines.len().saturating_sub(1);
    note(
        found,
        "plan in a short buffer",
        &lines_in(short)?,
        &(33, Vec::new()),
    );
    Ok(())
}

fn compare_answers(vector: &Recorded, found: &mut Vec<String>) -> Result<(), Unknown> {
    for (way, answer_by) in [("loops", by_loops as AnswerCall), ("plan", by_plan)] {
        let answer_in = |words: u64| {
            answer_by(
                &vector.data,
                &vector.calendars,
                &vector.question,
                ENOUGH,
                words,
            )
        };
        let answer = answer_in(u64::MAX)?;
        note(found, way, &answer.number, &vector.check);
        note_known(found, way, &answer.greatest, &vector.greatest);
        note_known(found, way, &answer.length, &vector.length);
        note_known(found, way, &answer.words, &vector.words);
        if let Some(greatest) = vector.greatest {
            let short = greatest.saturating_sub(1);
            let refused = answer_in(short)?;
            note(found, way, &(refused.number, refused.length), &(32, 0));
            let enough = answer_in(greatest)?;
            note(found, way, &enough, &answer);
        }
    }
    Ok(())
}

type AnswerCall = fn(&[u8], &[u8], &[u8], usize, u64) -> Result<evaluator::Answer, Unknown>;

fn note<T: PartialEq + std::fmt::Debug>(found: &mut Vec<String>, what: &str, is: &T, should: &T) {
    if is != should {
        found.push(format!("{what} is {is:?}, recorded {should:?}"));
    }
}

fn note_known<T: PartialEq + std::fmt::Debug>(
    found: &mut Vec<String>,
    what: &str,
    is: &T,
    should: &Option<T>,
) {
    if let Some(should) = should {
        note(found, what, is, should);
    }
}
