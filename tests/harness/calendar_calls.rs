//! The calls about days and hours (document 02, E4) against the second evaluator, what was recorded, a
//! calendar that is turned over day by day, and a look at one minute after another.

use evaluator::Unknown;

use super::calendars::{
    broken_calendars, in_other_words, Calendars, MINUTES, MINUTES_OF_DAY, MOST,
};
use super::calls;
use super::json::Json;
use super::lent::SCRATCH;
use super::nodes::{comprehension, number, open, SOME};
use super::random::Random;
use super::recorded::{bytes_or_none, read_lines};
use super::tally::{hex, Place, Tally};

/// In the tally: an open minute that does not exist. No refusal has the number.
const NONE: u64 = 1;

/// "41; 42" of the first-open call.
const FIRST_OPEN: [u64; 4] = [0, NONE, 41, 42];

/// "41" of the two date calls.
const DATES: [u64; 2] = [0, 41];

const WEEK: i64 = 7 * MINUTES_OF_DAY;

/// Among so many inputs one is looked at up to the last minute of the years, the others for two weeks:
/// what is open stays so a week later.
const WHOLE_YEARS: u64 = 5_000;

/// A call with what it is given.
enum Call {
    FirstOpen(Vec<u8>, u64, i64),
    DayNumber(u64, u64, u64),
    Date(u64),
}

impl Call {
    /// The engine's words.
    fn made(&self) -> Vec<u64> {
        match self {
            // On a block of exactly that length.
            Call::FirstOpen(calendars, calendar, minute) => {
                calls::first_open(&calendars.to_vec(), *calendar, *minute).to_vec()
            }
            Call::DayNumber(year, month, day) => calls::day_number(*year, *month, *day).to_vec(),
            Call::Date(day) => calls::date(*day).to_vec(),
        }
    }

    /// The evaluator's words.
    fn expected(&self) -> Result<Vec<u64>, Unknown> {
        Ok(match self {
            Call::FirstOpen(calendars, calendar, minute) => {
                evaluator::first_open(calendars, *calendar, *minute)?.to_vec()
            }
            Call::DayNumber(year, month, day) => {
                evaluator::day_number(*year, *month, *day)?.to_vec()
            }
            Call::Date(day) => evaluator::date(*day)?.to_vec(),
        })
    }

    fn shown(&self) -> String {
        match self {
            Call::FirstOpen(calendars, calendar, minute) => {
                format!(
                    "first open of {calendar} at {minute}, calendars {}",
                    hex(calendars)
                )
            }
            Call::DayNumber(year, month, day) => format!("day number of {year}-{month}-{day}"),
            Call::Date(day) => format!("date of {day}"),
        }
    }
}

/// A recorded call, with what it must tell.
pub struct Recorded {
    /// The file's name without its ending, a slash, and the name in the file.
    pub name: String,
    call: Call,
    words: Vec<u64>,
}

/// The calls in the files of a folder.
pub fn calls_in(folder: &str) -> Result<Vec<Recorded>, String> {
    read_lines(folder, Recorded::of_line)
}

impl Recorded {
    fn of_line(file: &str, line: &Json) -> Option<Recorded> {
        let unsigned = |key: &str| line.get(key).and_then(Json::unsigned);
        let (call, told): (Call, &[&str]) = match line.get("call")?.text()? {
            "first_open" => {
                let calendars = bytes_or_none(line.get("calendars"))?;
                let minute = line.get("minute")?.signed()?;
                let call = Call::FirstOpen(calendars, unsigned("calendar")?, minute);
                (call, &["number", "found", "minute"])
            }
            "day_number" => {
                let (year, month) = (unsigned("year")?, unsigned("month")?);
                let call = Call::DayNumber(year, month, unsigned("day")?);
                (call, &["number", "day"])
            }
            "date" => {
                let call = Call::Date(unsigned("day")?);
                (call, &["number", "year", "month", "day"])
            }
            _ => return None,
        };
        let out = line.get("out")?;
        let word = |key: &&str| out.get(key)?.unsigned();
        Some(Recorded {
            name: format!("{file}/{}", line.get("name")?.text()?),
            call,
            words: told.iter().map(word).collect::<Option<_>>()?,
        })
    }
}

pub struct Days {
    pub tally: Tally,
}

impl Days {
    pub fn of_dates(name: &'static str) -> Days {
        Days {
            tally: Tally::new(name, DATES.to_vec()),
        }
    }

    pub fn of_hours(name: &'static str) -> Days {
        Days {
            tally: Tally::new(name, FIRST_OPEN.to_vec()),
        }
    }

    /// Holds evaluator and engine against a recorded call.
    pub fn recorded(&mut self, case: &Recorded) {
        self.hold(&case.name, &case.call, Some(&case.words));
    }

    /// Makes a call and compares its words with the evaluator's, and both with what else is known.
    fn hold(&mut self, name: &str, call: &Call, known: Option<&[u64]>) {
        self.tally.inputs += 1;
        let expected = match call.expected() {
            Ok(expected) => expected,
            Err(unknown) => return self.tally.differs(&[name, unknown.0]),
        };
        let made = call.made();
        let counted = match (call, &made[..]) {
            (Call::FirstOpen(..), [0, 0, ..]) => NONE,
            _ => made[0],
        };
        self.tally.gave(counted);
        if known.is_some_and(|known| known != expected) {
            let what = format!("the evaluator tells {expected:?}, should be {known:?}");
            self.tally.differs(&[name, &call.shown(), &what]);
        }
        if made != expected {
            let what = format!("{made:?}, should be {expected:?}");
            self.tally.differs(&[name, &call.shown(), &what]);
        }
    }

    /// "years 2000 to 2399, 146,097 days, Gregorian": each day behind the last, both ways; then dates and
    /// day numbers around them, which do not exist.
    pub fn all_days(&mut self) {
        let mut date = [2000, 1, 1];
        let mut day = 0;
        while date[0] < 2400 {
            let [year, month, of_month] = date;
            let words = [0, year, month, of_month];
            self.hold("each day", &Call::Date(day), Some(&words));
            let back = Call::DayNumber(year, month, of_month);
            self.hold("each date", &back, Some(&[0, day]));
            date = next_day(date);
            day += 1;
        }
        self.missing(day);
    }

    /// Of the years 1998 to 2401, months 0 to 13 and days 0 to 33 all but those days, and far ones; day
    /// numbers from the first that does not exist.
    fn missing(&mut self, days: u64) {
        let mut missing = 0;
        for year in 1998..=2401 {
            for (month, day) in (0..=13).flat_map(|month| (0..=33).map(move |day| (month, day))) {
                let call = Call::DayNumber(year, month, day);
                if !exists([year, month, day]) {
                    missing += 1;
                    self.hold("no date", &call, Some(&[41, 0]));
                }
            }
        }
        // 404 x 14 x 34 less 146,097.
        if (days, missing) != (146_097, 46_207) {
            let what = format!("{days} days, {missing} dates that do not exist");
            self.tally.differs(&[&what]);
        }
        for far in FAR {
            for call in [
                Call::DayNumber(far, 1, 1),
                Call::DayNumber(2000 + far, 1, 1),
                Call::DayNumber(2000, far, 1),
                Call::DayNumber(2000, 1 + far, 1),
                Call::DayNumber(2000, 1, far),
                Call::DayNumber(2000, 1, 1 + far),
            ] {
                self.hold("no date", &call, Some(&[41, 0]));
            }
            for day in [days, days + 1, far, far + 1, far - 1] {
                self.hold("no day", &Call::Date(day), Some(&[41, 0, 0, 0]));
            }
        }
    }

    /// A made input of the first-open call.
    pub fn input(&mut self, place: Place) {
        let mut random = Random::new(place.0, place.1);
        let whole = Calendars::some(&mut random);
        let bytes = match random.below(12) {
            0 => broken_calendars(&mut random),
            1 => Calendars::random(&mut random).bytes(),
            _ => whole.bytes(),
        };
        let lent = whole.number(&mut random).map_or(0, u64::from);
        let calendar = match random.below(10) {
            0 => random.one_of(&[MOST as u64, 5, 1 << 32, u64::MAX], 4),
            _ => lent,
        };
        let any = random.next() as i64;
        let minute = match random.below(6) {
            0 => random.one_of(&[i64::MIN, i64::MAX, -1, MINUTES, 1 << 32, any], 0),
            1 => random.between(0, MINUTES as usize) as i64,
            _ => whole.edge(&mut random, lent as u8),
        };
        let call = Call::FirstOpen(bytes.clone(), calendar, minute);
        let name = format!("input {} of seed {}", place.1, place.0);
        let looked = (bytes == whole.bytes() && calendar < whole.0.len() as u64)
            .then(|| look(&whole, calendar as usize, minute, place.1));
        self.hold(&name, &call, looked.as_ref().map(|words| &words[..]));
        if let Some(other) = in_other_words(place, &bytes) {
            let call = Call::FirstOpen(other, calendar, minute);
            self.hold(&name, &call, looked.as_ref().map(|words| &words[..]));
        }
        if let (Some(first), Ok(asked)) = (looked, i32::try_from(minute)) {
            let is_open = first == [0, 1, minute as u64];
            self.asked(&name, &bytes, calendar as u8, asked, is_open);
        }
    }

    /// A question about that minute is answered with true exactly where it is the first open one itself.
    fn asked(&mut self, name: &str, calendars: &[u8], calendar: u8, minute: i32, is_open: bool) {
        let question = comprehension(SOME, Vec::new(), open(calendar, number(minute))).bytes();
        let mut scratch = vec![0; SCRATCH];
        let mut answer = [-1];
        let outcome = calls::answer_by_loops(&[], calendars, &question, &mut scratch, &mut answer);
        if outcome.number != 0 || answer != [i64::from(is_open)] {
            let what = format!("{minute} is asked: {outcome:?}, {answer:?}, should be {is_open}");
            self.tally.differs(&[name, &what, &hex(calendars)]);
        }
    }
}

/// Words that are far outside: also their low 32 bits, or they less 2,000, may look like a good number.
const FAR: [u64; 5] = [1 << 31, 1 << 32, (1 << 32) + 2000, 1 << 63, u64::MAX - 2001];

/// The days of a month, in the years 2000 to 2399; 0 where there is no such month.
fn days_of_month([year, month, _]: [u64; 3]) -> u64 {
    let common = [31, 28, 31, 30, 31, 30, 31, 31, 30, 31, 30, 31];
    let leap = year % 4 == 0 && ![2100, 2200, 2300].contains(&year);
    match (1..).zip(common).find(|(own, _)| *own == month) {
        Some((2, days)) if leap => days + 1,
        Some((_, days)) => days,
        None => 0,
    }
}

fn exists(date: [u64; 3]) -> bool {
    let [year, _, day] = date;
    (2000..2400).contains(&year) && (1..=days_of_month(date)).contains(&day)
}

/// The day behind a date.
fn next_day(date: [u64; 3]) -> [u64; 3] {
    let [year, month, day] = date;
    match (month, day) {
        (12, 31) => [year + 1, 1, 1],
        _ if day == days_of_month(date) => [year, month + 1, 1],
        _ => [year, month, day + 1],
    }
}

/// What the call must tell, found by looking at one minute after another.
fn look(calendars: &Calendars, calendar: usize, minute: i64, index: u64) -> [u64; 3] {
    let mut week = vec![false; WEEK as usize];
    for window in &calendars.0[calendar].0 {
        for of_day in window.first..window.end {
            let of_week = i64::from(window.weekday) * MINUTES_OF_DAY + i64::from(of_day);
            week[of_week as usize] = true;
        }
    }
    let from = minute.max(0);
    let until = match index % WHOLE_YEARS {
        4_999 => MINUTES,
        _ => MINUTES.min(from.saturating_add(2 * WEEK)),
    };
    // Minute 0 is a Saturday's first.
    let is_open = |minute: &i64| week[((minute + 5 * MINUTES_OF_DAY) % WEEK) as usize];
    match (from..until).find(is_open) {
        Some(first) => [0, 1, first as u64],
        None => [0, 0, 0],
    }
}
