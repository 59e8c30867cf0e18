//! A second evaluator of document 01 with the landed requests of document 02 (E1, E2, E4, E5, E6, E9, E10, E11, E12, E13), written
//! from their text alone and as literally as it can be: trees are rewritten, streams are kept whole, and nothing
//! is fast. It serves the four calls and says `Unknown` where an input would take it too long; it also charges
//! dues by a tariff, counts outages, turns tables from rows to columns and back, pairs two logs, and knows days, dates and open
//! minutes.

mod bounds;
mod budget;
mod by_column;
mod calendars;
mod checks;
mod dates;
mod logs;
mod meaning;
mod normal;
mod operators;
mod outages;
mod plan;
mod reader;
mod tables;
mod tariff;
mod terms;
mod values;

pub use budget::Unknown;
use budget::{Budget, Stop};
use calendars::Calendars;
use tables::{Kind, Tables};
use terms::Comprehension;

/// "31: scratch under .. words"; document 02, E13: "Refusal 31 moves to fewer than 2,048".
const SCRATCH: usize = 2048;

/// What an answering call gives.
#[derive(Clone, Debug, Default, PartialEq, Eq)]
pub struct Answer {
    /// 0, or the refusal's number.
    pub number: u32,
    /// Words of the answer; 0 at a refusal.
    pub length: u64,
    /// The answer's words; in the lent buffer 0 follows them up to G.
    pub words: Vec<i64>,
    /// G; 0 at a refusal other than 32.
    pub greatest: u64,
    /// By plan: pairs of a stream row without a pad and a table row, over all joins and outers.
    pub offered: u64,
}

/// The checker: number and length, the length always 0. "The checker takes no answer buffer and
/// ends after 28."
pub fn check(
    data: &[u8],
    calendars: &[u8],
    question: &[u8],
    scratch: usize,
) -> Result<(u32, u64), Unknown> {
    let accepted = accept(data, calendars, question, scratch).map(|_| (0, 0));
    refusal_or(accepted, |number| (number, 0))
}

/// The answer by loops, over the question as typed. The normal form must give the same words; it
/// is also what an engine runs, so where only the normal form takes too long (a set is ranged over
/// with its repeats) that is `Unknown` too.
pub fn by_loops(
    data: &[u8],
    calendars: &[u8],
    question: &[u8],
    scratch: usize,
    answer_words: u64,
) -> Result<Answer, Unknown> {
    let answer = accept(data, calendars, question, scratch).and_then(|accepted| {
        answered(&accepted, answer_words, |accepted| {
            Ok((words_by_loops(accepted)?, 0))
        })
    });
    refusal_or(answer, refused)
}

/// The answer by plan, from the operators' definitions.
pub fn by_plan(
    data: &[u8],
    calendars: &[u8],
    question: &[u8],
    scratch: usize,
    answer_words: u64,
) -> Result<Answer, Unknown> {
    let answer = accept(data, calendars, question, scratch).and_then(|accepted| {
        answered(&accepted, answer_words, |accepted| {
            let plan = plan::make_plan(&accepted.form)?;
            let run = operators::answer_by_plan(&plan, &accepted.lent)?;
            Ok((run.words, run.offered))
        })
    });
    refusal_or(answer, refused)
}

/// E6: the dues on an answer. "44 .., after 31; 45, a question of another type, after 28; 46 .., after 32 and
/// before a word is written". Both ways give the same words, so one of them is charged.
pub fn with_tariff(
    data: &[u8],
    calendars: &[u8],
    question: &[u8],
    tariff: &[u8],
    scratch: usize,
    answer_words: u64,
) -> Result<Answer, Unknown> {
    let answer = enough(scratch)
        .and_then(|()| tariff::read_tariff(tariff))
        .and_then(|tariff| {
            let accepted = accept(data, calendars, question, scratch)?;
            if !checks::gives_ships(&accepted.question, &accepted.lent)? {
                return Err(Stop::Refused(45));
            }
            answered(&accepted, answer_words, |accepted| {
                Ok((tariff.dues(&words_by_loops(accepted)?)?, 0))
            })
        });
    refusal_or(answer, refused)
}

/// Steps of the evaluator over all subsets together.
const STEPS_OF_SUBSETS: u64 = 30_000_000;

/// E12: how many subsets of a table's rows "give true and how many false. The counts, true first, are the answer's two
/// words; 32 is then a buffer under two. 55 ..; 56 ..; both after 28, 55 first."
pub fn count_outages(
    data: &[u8],
    calendars: &[u8],
    question: &[u8],
    table: u64,
    scratch: usize,
    answer_words: u64,
) -> Result<Answer, Unknown> {
    let answer = accept(data, calendars, question, scratch).and_then(|accepted| {
        outages::check_monoid(&accepted.question)?;
        let (number, table) = outages::table_of(&accepted.lent.tables, table)?;
        if answer_words < 2 {
            return Ok(Answer {
                number: 32,
                greatest: 2,
                ..Answer::default()
            });
        }
        let mut budget = Budget::new(STEPS_OF_SUBSETS, "too many subsets");
        let mut counts = [0, 0];
        for subset in 0..1 << table.rows.len() {
            let lent = Lent {
                tables: outages::with_rows_of(data, number, table, subset)?,
                calendars: calendars::read_calendars(calendars)?,
            };
            let (words, steps) = meaning::counted_by_loops(&accepted.question, &lent)?;
            budget.spend(steps)?;
            match words[..] {
                [1] => counts[0] += 1,
                [0] => counts[1] += 1,
                _ => return Err(budget::FAULT),
            }
        }
        Ok(Answer {
            number: 0,
            length: 2,
            words: counts.to_vec(),
            greatest: 2,
            offered: 0,
        })
    });
    refusal_or(answer, refused)
}

/// The plan's lines; at a refusal its number and no bytes. The length is that of the bytes.
pub fn plan_lines(
    data: &[u8],
    calendars: &[u8],
    question: &[u8],
    scratch: usize,
    buffer_bytes: usize,
) -> Result<(u32, Vec<u8>), Unknown> {
    let lines = accept(data, calendars, question, scratch).and_then(|accepted| {
        let lines = plan::lines_of(&plan::make_plan(&accepted.form)?).into_bytes();
        // "33: the plan call's byte buffer is shorter than the plan's lines."
        if buffer_bytes < lines.len() {
            return Err(Stop::Refused(33));
        }
        Ok((0, lines))
    });
    refusal_or(lines, |number| (number, Vec::new()))
}

/// E10: a record of kind 20 as one of kind 23, into a buffer of so many bytes; at a refusal its number and
/// no bytes. The length is that of the bytes, and what is behind them in the buffer stays.
pub fn table_to_columns(record: &[u8], target_bytes: usize) -> Result<(u32, Vec<u8>), Unknown> {
    turned(record, Kind::ByRow, target_bytes)
}

/// The other direction: a record of kind 23 as one of kind 20.
pub fn table_to_rows(record: &[u8], target_bytes: usize) -> Result<(u32, Vec<u8>), Unknown> {
    turned(record, Kind::ByColumn, target_bytes)
}

fn turned(record: &[u8], from: Kind, target_bytes: usize) -> Result<(u32, Vec<u8>), Unknown> {
    let bytes = by_column::turned(record, from, target_bytes).map(|bytes| (0, bytes));
    refusal_or(bytes, |number| (number, Vec::new()))
}

/// E11: two tables of these numbers paired into a buffer of so many bytes: the three records; at a refusal
/// its number and no bytes. What is behind them in the buffer stays.
pub fn pair_logs(
    data: &[u8],
    first: u64,
    second: u64,
    tolerance: u64,
    target_bytes: usize,
) -> Result<(u32, Vec<u8>), Unknown> {
    let records = logs::pair_logs(data, first, second, tolerance, target_bytes);
    refusal_or(records.map(|bytes| (0, bytes)), |number| {
        (number, Vec::new())
    })
}

/// E4: number, found and minute of "the first open minute at or after a given signed one, or none exactly if
/// no such minute exists"; 42 is "after 41 in the first-open call". None is found 0 and minute 0. What is
/// behind the number is 0 at a refusal, as for the two calls below.
pub fn first_open(calendars: &[u8], calendar: u64, minute: i64) -> Result<[u64; 3], Unknown> {
    let first = calendars::read_calendars(calendars)
        .and_then(|calendars| calendars.first_open(calendar, minute));
    told(first.map(|first| match first {
        Some(minute) => [0, 1, minute],
        None => [0, 0, 0],
    }))
}

/// E4: number and day of the call "from year, month, day to day number".
pub fn day_number(year: u64, month: u64, day: u64) -> Result<[u64; 2], Unknown> {
    told(dates::day_number(year, month, day).map(|day| [0, day]))
}

/// E4: number, year, month and day of the call "back".
pub fn date(day: u64) -> Result<[u64; 4], Unknown> {
    told(dates::date(day).map(|(year, month, day)| [0, year, month, day]))
}

fn told<const WORDS: usize>(words: Result<[u64; WORDS], Stop>) -> Result<[u64; WORDS], Unknown> {
    refusal_or(words, |number| {
        let mut refused = [0; WORDS];
        refused[0] = u64::from(number);
        refused
    })
}

/// For tests of the evaluator itself: whether the normal form is one, by the six rules and the
/// node count alone. True for a question that is refused.
pub fn normal_form_holds(data: &[u8], calendars: &[u8], question: &[u8]) -> Result<bool, Unknown> {
    let holds = accept(data, calendars, question, SCRATCH).map(|accepted| {
        normal::no_rule_applies(&accepted.form) && normal::nodes_of(&accepted.form) <= 512
    });
    refusal_or(holds, |_| true)
}

/// What a question is asked over.
struct Lent {
    tables: Tables,
    calendars: Calendars,
}

/// A question that the checker answers with 0.
struct Accepted {
    lent: Lent,
    question: Comprehension,
    form: Comprehension,
}

/// "Order: 31; the data ...; 21; 22 and 23 in reading order ...; then 24 to 28 by number, each
/// over the whole question"; E4: 41 is "after all data refusals", whether or not the question asks for a
/// calendar, and 42 "after 25 in a question".
fn accept(
    data: &[u8],
    calendars: &[u8],
    question: &[u8],
    scratch: usize,
) -> Result<Accepted, Stop> {
    enough(scratch)?;
    let lent = Lent {
        tables: tables::read_tables(data)?,
        calendars: calendars::read_calendars(calendars)?,
    };
    let question = reader::read_question(question)?;
    checks::check_names(&question)?;
    checks::check_types(&question, &lent)?;
    let form = normal::normal_form(&question, &lent.tables)?;
    bounds::check_bounds(&form, &lent.tables)?;
    Ok(Accepted {
        lent,
        question,
        form,
    })
}

/// The least scratch, which every call that is lent some asks for first.
fn enough(scratch: usize) -> Result<(), Stop> {
    if scratch < SCRATCH {
        return Err(Stop::Refused(31));
    }
    Ok(())
}

/// The words by loops of the question as typed, which are those of its normal form.
fn words_by_loops(accepted: &Accepted) -> Result<Vec<i64>, Stop> {
    let words = meaning::answer_by_loops(&accepted.question, &accepted.lent)?;
    let again = meaning::answer_by_loops(&accepted.form, &accepted.lent)?;
    if again != words {
        return Err(budget::FAULT);
    }
    Ok(words)
}

/// "32: the answer buffer has fewer than G words", then the words and the pairs offered.
fn answered(
    accepted: &Accepted,
    answer_words: u64,
    evaluate: impl Fn(&Accepted) -> Result<(Vec<i64>, u64), Stop>,
) -> Result<Answer, Stop> {
    let greatest = meaning::greatest_length(&accepted.form, &accepted.lent)?;
    if answer_words < greatest {
        return Ok(Answer {
            number: 32,
            greatest,
            ..Answer::default()
        });
    }
    let (words, offered) = evaluate(accepted)?;
    let length = u64::try_from(words.len()).unwrap_or(u64::MAX);
    Ok(Answer {
        number: 0,
        length,
        words,
        greatest,
        offered,
    })
}

/// An answering call's reply to a refusal.
fn refused(number: u32) -> Answer {
    Answer {
        number,
        ..Answer::default()
    }
}

/// A refusal as a reply, a give-up as `Unknown`.
fn refusal_or<T>(reply: Result<T, Stop>, refused: impl Fn(u32) -> T) -> Result<T, Unknown> {
    match reply {
        Ok(reply) => Ok(reply),
        Err(Stop::Refused(number)) => Ok(refused(number)),
        Err(Stop::Unknown(reason)) => Err(Unknown(reason)),
    }
}
