//! Recorded scenes (document 02, E7 and E8): calls in turn over the same tables, each question at a seat
//! with a scratch and an answer buffer of its own. Each line of a file is a JSON object with name,
//! tables, seats and steps, and `out` of a step is what is known of its outcome.

use super::calls::{self, LentSeat, Outcome, Portioned};
use super::json::Json;
use super::lent::{Lent, SCRATCH};
use super::recorded::{bytes_or_none, read_lines};

/// Requests that have landed, beside those whose calls are played here: a scene may need others.
const LANDED: [&str; 6] = ["e1", "e2", "e4", "e5", "e9", "e10"];

/// Seats of a round.
const SEATS: usize = 4;

pub struct Scene {
    /// The file's name without its ending, a slash, and the name in the file.
    pub name: String,
    /// What it waits for; it cannot be played before.
    pub waits_for: Option<String>,
    data: Vec<u8>,
    calendars: Vec<u8>,
    seats: Vec<Lengths>,
    steps: Vec<Step>,
    /// G, where the scene has one question.
    greatest: Option<usize>,
}

/// What a seat has at first.
struct Lengths {
    scratch: usize,
    /// Scratch of 0; else rubbish.
    zero: bool,
    answer: usize,
}

enum Step {
    At {
        seat: usize,
        call: Call,
        out: Out,
    },
    /// Over all seats: quotas, number, and what is known of each seat.
    Round {
        quotas: Vec<u64>,
        number: u64,
        outs: Vec<Out>,
    },
}

enum Call {
    Begin(Vec<u8>),
    Check(Vec<u8>),
    AnswerByPlan(Vec<u8>),
    /// Rows, and how many words of scratch are lent where not all are.
    Portion(u64, Option<usize>),
}

/// What a call must give and leave.
struct Out {
    said: Portioned,
    scratch: Scratch,
    /// The front of the answer buffer, where it is promised.
    words: Option<Vec<i64>>,
}

enum Scratch {
    Zero,
    /// Not all 0.
    Unfinished,
    /// As it was.
    Same,
}

/// A seat while a scene is played.
struct Seat {
    scratch: Lent<u64>,
    answer: Lent<i64>,
}

/// The scenes in a folder.
pub fn scenes_in(folder: &str) -> Result<Vec<Scene>, String> {
    read_lines(folder, Scene::of_line)
}

impl Scene {
    fn of_line(file: &str, line: &Json) -> Option<Scene> {
        let needs = match line.get("needs") {
            Some(needs) => needs.each(|need| need.text().map(str::to_string))?,
            None => Vec::new(),
        };
        let missing = needs.into_iter().find(|need| !LANDED.contains(&&need[..]));
        Some(Scene {
            name: format!("{file}/{}", line.get("name")?.text()?),
            waits_for: missing,
            data: line.get("data")?.bytes()?,
            calendars: bytes_or_none(line.get("calendars"))?,
            seats: line.get("seats")?.each(Lengths::of_object)?,
            steps: line.get("steps")?.each(Step::of_object)?,
            greatest: line.get("G").and_then(size_of),
        })
    }

    /// Plays all steps; gives the number of each, or says what differs.
    pub fn play(&self) -> Result<Vec<u64>, String> {
        let mut seats: Vec<Seat> = self.seats.iter().map(Seat::new).collect();
        // Nothing at all is lent to a seat that the scene has not.
        while seats.len() < SEATS {
            seats.push(Seat::new(&Lengths::NONE));
        }
        let mut numbers = Vec::new();
        for (position, step) in self.steps.iter().enumerate() {
            let played = match step {
                Step::At { seat, call, out } => match seats.get_mut(*seat) {
                    Some(seat) => seat.play(self, call, out).map(|number| vec![number]),
                    None => Err("no seat".to_string()),
                },
                Step::Round {
                    quotas,
                    number,
                    outs,
                } => self.round(&mut seats, quotas, *number, outs),
            };
            numbers.extend(played.map_err(|what| format!("step {position}: {what}"))?);
        }
        Ok(numbers)
    }

    /// Makes a round; gives its number, or those of the seats that it visited.
    fn round(
        &self,
        seats: &mut [Seat],
        quotas: &[u64],
        number: u64,
        outs: &[Out],
    ) -> Result<Vec<u64>, String> {
        let [first, second, third, fourth] = seats else {
            return Err(format!("{} seats", seats.len()));
        };
        let before = [&mut *first, second, third, fourth].map(|seat| seat.held());
        let lent = [&mut *first, second, third, fourth].map(Seat::lent);
        let round = calls::round(&self.data, &self.calendars, quotas, lent);
        if round.number != number || outs.len() != SEATS {
            return Err(format!("number {}, should be {number}", round.number));
        }
        let mut numbers = Vec::new();
        for (at, (seat, out)) in seats.iter_mut().zip(outs).enumerate() {
            let visited = number == 0 && at < quotas.len();
            seat.compare(self, round.seats[at], out, &before[at], !visited)
                .map_err(|what| format!("seat {at}: {what}"))?;
            numbers.extend(visited.then_some(out.said.number));
        }
        Ok(if number == 0 { numbers } else { vec![number] })
    }
}

impl Lengths {
    const NONE: Lengths = Lengths {
        scratch: 0,
        zero: true,
        answer: 0,
    };

    fn of_object(seat: &Json) -> Option<Lengths> {
        Some(Lengths {
            scratch: words_of(seat.get("scratch")?)?,
            zero: seat.get("fill")?.unsigned()? == 0,
            answer: size_of(seat.get("answer")?)?,
        })
    }
}

impl Step {
    fn of_object(step: &Json) -> Option<Step> {
        let out = step.get("out")?;
        let question = || step.get("question")?.bytes();
        let call = match step.get("call")?.text()? {
            "begin" => Call::Begin(question()?),
            "check" => Call::Check(question()?),
            "answer_by_plan" => Call::AnswerByPlan(question()?),
            "portion" => {
                let lent = match step.get("lend") {
                    Some(lent) => Some(words_of(lent)?),
                    None => None,
                };
                Call::Portion(step.get("rows")?.unsigned()?, lent)
            }
            "round" => {
                return Some(Step::Round {
                    quotas: step.get("quotas")?.each(Json::unsigned)?,
                    number: out.get("number")?.unsigned()?,
                    outs: out.get("seats")?.each(Out::of_object)?,
                })
            }
            _ => return None,
        };
        Some(Step::At {
            seat: size_of(step.get("seat")?)?,
            call,
            out: Out::of_object(out)?,
        })
    }
}

impl Out {
    fn of_object(out: &Json) -> Option<Out> {
        let unsigned = |key: &str| out.get(key).map_or(Some(0), Json::unsigned);
        Some(Out {
            said: Portioned {
                finished: unsigned("finished")?,
                rows: unsigned("offered")?,
                number: unsigned("number")?,
                length: unsigned("length")?,
            },
            scratch: match out.get("scratch").map(Json::text) {
                Some(Some("zero")) => Scratch::Zero,
                Some(Some("unfinished")) => Scratch::Unfinished,
                // None is told of a seat that the scene has not.
                Some(Some("short" | "other")) | None => Scratch::Same,
                _ => return None,
            },
            words: out.get("words").and_then(Json::words),
        })
    }
}

impl Seat {
    fn new(lengths: &Lengths) -> Seat {
        let (mut scratch, mut answer) = (Lent::new(), Lent::new());
        let lent = scratch.lend(lengths.scratch, 0);
        if lengths.zero {
            let used = lent.len().min(SCRATCH);
            lent[..used].fill(0);
        }
        answer.lend(lengths.answer, 0);
        Seat { scratch, answer }
    }

    fn lent(&mut self) -> LentSeat<'_> {
        LentSeat {
            scratch: self.scratch.again(),
            answer: self.answer.again(),
        }
    }

    /// What stands in scratch and answer.
    fn held(&mut self) -> (Vec<u64>, Vec<i64>) {
        (self.scratch.again().to_vec(), self.answer.again().to_vec())
    }

    /// Makes a call at this seat alone; gives its number.
    fn play(&mut self, scene: &Scene, call: &Call, out: &Out) -> Result<u64, String> {
        let before = self.held();
        let said = self.said(scene, call);
        self.compare(scene, said, out, &before, false)?;
        Ok(said.number)
    }

    /// What was said of this seat and left there; `idle` where nothing is said of it.
    fn compare(
        &mut self,
        scene: &Scene,
        said: Portioned,
        wanted: &Out,
        before: &(Vec<u64>, Vec<i64>),
        idle: bool,
    ) -> Result<(), String> {
        if said != wanted.said {
            return Err(format!("{said:?}, should be {:?}", wanted.said));
        }
        self.compare_scratch(&wanted.scratch, &before.0)?;
        let answer = match &wanted.words {
            Some(words) => self.answer.differs(words, 0),
            // "Until then its answer buffer has no promised content", save that a single call
            // changes nothing behind G.
            None => {
                let promised = scene.greatest.unwrap_or(usize::MAX).min(self.answer.len());
                self.answer.differs(self.answer.front(promised), 0)
            }
        };
        if let Some(what) = answer {
            return Err(format!("answer word {what}"));
        }
        let unchanged = idle || [31, 47, 48].contains(&said.number);
        if unchanged && self.held() != *before {
            return Err(format!("{} has changed something", said.number));
        }
        Ok(())
    }

    /// Makes the call; one that is no portion is taken for one that offers nothing.
    fn said(&mut self, scene: &Scene, call: &Call) -> Portioned {
        let (data, calendars) = (&scene.data[..], &scene.calendars[..]);
        let (scratch, answer) = (self.scratch.again(), self.answer.again());
        let Outcome { number, length } = match call {
            Call::Begin(question) => calls::begin(data, calendars, question, scratch),
            Call::Check(question) => calls::check(data, calendars, question, scratch),
            Call::AnswerByPlan(question) => {
                calls::answer_by_plan(data, calendars, question, scratch, answer)
            }
            Call::Portion(rows, lent) => {
                let lent = lent.unwrap_or(scratch.len());
                return calls::portion(data, calendars, &mut scratch[..lent], answer, *rows);
            }
        };
        Portioned {
            finished: 0,
            rows: 0,
            number,
            length,
        }
    }

    fn compare_scratch(&self, wanted: &Scratch, before: &[u64]) -> Result<(), String> {
        let used = self.scratch.front(self.scratch.len().min(SCRATCH));
        let differing = match wanted {
            Scratch::Zero => self.scratch.differs(&[], used.len()),
            Scratch::Unfinished if used.iter().all(|word| *word == 0) => {
                return Err("scratch is 0, should be unfinished".to_string())
            }
            Scratch::Unfinished => self.scratch.differs(used, 0),
            Scratch::Same => self.scratch.differs(before, 0),
        };
        match differing {
            Some(what) => Err(format!("scratch word {what}")),
            None => Ok(()),
        }
    }
}

fn size_of(number: &Json) -> Option<usize> {
    usize::try_from(number.unsigned()?).ok()
}

/// A count of scratch words: "min", the least that a call takes, some more or fewer, or a number.
pub fn words_of(words: &Json) -> Option<usize> {
    let Some(text) = words.text() else {
        return size_of(words);
    };
    match text.strip_prefix("min") {
        None => text.parse().ok(),
        Some("") => Some(SCRATCH),
        Some(difference) => SCRATCH.checked_add_signed(difference.parse().ok()?),
    }
}
