//! Calendars (document 02, E4): made well formed and broken, and minutes where they begin and end, and where
//! weeks and years do.

use super::nodes::{record_bytes, BY_COLUMN, CALENDAR, OPEN, STORED};
use super::random::Random;
use super::tally::Place;

/// "years 2000 to 2399, 146,097 days".
pub const DAYS: i64 = 146_097;
pub const MINUTES_OF_DAY: i64 = 1440;
pub const MINUTES: i64 = DAYS * MINUTES_OF_DAY;

/// "up to 4", "0 to 32" windows.
pub const MOST: usize = 4;
const MOST_WINDOWS: usize = 32;

const SATURDAY: u8 = 5;

/// "each a weekday byte (0 Monday to 6 Sunday), a first minute and an end minute of two bytes".
#[derive(Clone, Copy, Debug)]
pub struct Window {
    pub weekday: u8,
    pub first: u16,
    pub end: u16,
}

#[derive(Clone, Debug)]
pub struct Calendar(pub Vec<Window>);

/// Well-formed calendars.
#[derive(Clone, Debug)]
pub struct Calendars(pub Vec<Calendar>);

impl Calendars {
    /// As many as there may be, often none.
    pub fn random(random: &mut Random) -> Calendars {
        let count = random.one_of(&[0, 0, 1, 1, 1, 2, 2, 3, MOST], 1);
        Calendars::of(random, count)
    }

    /// One or more.
    pub fn some(random: &mut Random) -> Calendars {
        let count = random.one_of(&[1, 1, 2, 2, 3, MOST], 1);
        Calendars::of(random, count)
    }

    fn of(random: &mut Random, count: usize) -> Calendars {
        Calendars((0..count).map(|_| Calendar::random(random)).collect())
    }

    /// The first of them, or none.
    pub fn fewer(&self, random: &mut Random) -> Calendars {
        let count = random.below(self.0.len());
        Calendars(self.0.iter().take(count).cloned().collect())
    }

    fn records(&self) -> Vec<Vec<u8>> {
        self.0.iter().map(Calendar::bytes).collect()
    }

    pub fn bytes(&self) -> Vec<u8> {
        self.records().concat()
    }

    /// The number of one of them.
    pub fn number(&self, random: &mut Random) -> Option<u8> {
        let count = self.0.len();
        let place = random.below(count);
        (place < count).then(|| u8::try_from(place).unwrap_or(0))
    }

    /// A minute beside the edge of a calendar's window, in one of the first weeks, the last ones or any; or
    /// beside one of a day, a week, a year or all years.
    pub fn edge(&self, random: &mut Random, calendar: u8) -> i64 {
        let own = self.0.get(usize::from(calendar));
        let window = own.and_then(|own| random.pick(&own.0));
        let at = match window {
            Some(window) if random.chance(75) => {
                let day = day_of(random, window.weekday);
                day * MINUTES_OF_DAY + i64::from(random.one_of(&[window.first, window.end], 0))
            }
            _ => edge_of_years(random),
        };
        at + random.one_of(&[-1, -1, 0, 0, 0, 1], 0)
    }
}

/// A day of that weekday: "Day 0 is 2000-01-01, a Saturday".
fn day_of(random: &mut Random, weekday: u8) -> i64 {
    let last = DAYS / 7 - 1;
    let any = random.between(0, last as usize) as i64;
    let week = random.one_of(&[0, 0, 0, 1, 2, last - 1, last, any], 0);
    7 * week + i64::from((weekday + 7 - SATURDAY) % 7)
}

/// Midnight where a week, a month, a year or all years begin or end.
fn edge_of_years(random: &mut Random) -> i64 {
    let year = random.between(2000, 2399) as u64;
    let year = random.one_of(&[2000, 2001, 2004, 2100, 2200, 2399, year, year], 2000);
    let month = random.one_of(&[1, 2, 3, 12], 1);
    let told = evaluator::day_number(year, month, 1);
    let first = told.map_or(0, |[_, day]| day as i64);
    let week = 7 * random.between(0, DAYS as usize / 7) as i64;
    random.one_of(&[0, 0, 1, 7, DAYS - 1, DAYS, DAYS, first, week], 0) * MINUTES_OF_DAY
}

impl Calendar {
    /// Windows that may have minutes in common, touch, stand twice and in any order.
    fn random(random: &mut Random) -> Calendar {
        let any = random.between(0, MOST_WINDOWS);
        let count = random.one_of(&[0, 1, 1, 1, 2, 2, 3, 5, 8, any, MOST_WINDOWS], 1);
        let mut windows: Vec<Window> = Vec::new();
        for _ in 0..count {
            let last = windows.last().copied();
            windows.push(match (random.below(8), last) {
                (0, Some(last)) => last,
                (1, Some(last)) if last.end < 1440 => Window {
                    first: last.end,
                    end: random.between(usize::from(last.end) + 1, 1440) as u16,
                    ..last
                },
                _ => Window::random(random),
            });
        }
        Calendar(windows)
    }

    /// The record's content, whatever the windows are.
    fn content(&self) -> Vec<u8> {
        let mut content = vec![u8::try_from(self.0.len()).unwrap_or(u8::MAX)];
        for window in &self.0 {
            content.push(window.weekday);
            content.extend(window.first.to_le_bytes());
            content.extend(window.end.to_le_bytes());
        }
        content
    }

    fn bytes(&self) -> Vec<u8> {
        record_bytes(CALENDAR, &self.content())
    }
}

impl Window {
    /// Small minutes of a Saturday are common: small cells of tables lie there.
    fn random(random: &mut Random) -> Window {
        let weekday = random.one_of(&[0, 1, 2, 3, 4, SATURDAY, SATURDAY, SATURDAY, 6], SATURDAY);
        let any = random.between(0, 1439);
        let first = random.one_of(&[0, 0, 1, 2, 3, 480, 1438, 1439, any, any], 0);
        let more = random.between(1, 1440 - first);
        let length = random.one_of(&[1, 1, 2, more, more, 1440], 1);
        Window {
            weekday,
            first: first as u16,
            end: (first + length).min(1440) as u16,
        }
    }
}

/// "41, a calendar record that breaks this layout or a fifth one": one broken record among the others, cut,
/// or behind four.
pub fn broken_calendars(random: &mut Random) -> Vec<u8> {
    let mut records = Calendars::random(random).records();
    if random.chance(20) {
        let whole = Calendars::of(random, MOST + 1).records();
        let mut bytes = whole.concat();
        let four: usize = whole.iter().take(MOST).map(Vec::len).sum();
        bytes.truncate(random.between(four + 1, bytes.len()));
        return bytes;
    }
    let position = random.between(0, records.len().min(MOST - 1));
    let broken = broken_calendar(random);
    records.insert(position, broken);
    records.concat()
}

fn broken_calendar(random: &mut Random) -> Vec<u8> {
    let mut calendar = Calendar::random(random);
    if random.chance(50) {
        let broken = broken_window(random);
        calendar.0.truncate(MOST_WINDOWS - 1);
        let position = random.between(0, calendar.0.len());
        calendar.0.insert(position, broken);
        return calendar.bytes();
    }
    let mut content = calendar.content();
    match random.below(6) {
        // A 33rd window, or far more.
        0 => {
            let count = random.one_of(&[MOST_WINDOWS + 1, MOST_WINDOWS + 1, 40, 255], 33);
            let window = Window::random(random);
            calendar.0.resize(count, window);
            calendar.bytes()
        }
        // Another count than there are.
        1 => {
            content[0] = content[0].wrapping_add(random.one_of(&[1, 2, 255], 1));
            record_bytes(CALENDAR, &content)
        }
        // Bytes cut off or put behind, the record's length fitting.
        2 => {
            content.truncate(random.below(content.len()));
            record_bytes(CALENDAR, &content)
        }
        3 => {
            content.extend((0..random.between(1, 4)).map(|_| random.byte()));
            record_bytes(CALENDAR, &content)
        }
        // Another kind.
        4 => {
            let kinds = [0, OPEN, STORED, BY_COLUMN, 25, CALENDAR + 256];
            record_bytes(random.one_of(&kinds, STORED), &content)
        }
        // A record cut short.
        _ => {
            let mut bytes = calendar.bytes();
            bytes.truncate(random.between(1, bytes.len() - 1));
            bytes
        }
    }
}

/// A weekday over 6, or minutes that are no window.
fn broken_window(random: &mut Random) -> Window {
    let whole = Window::random(random);
    let (first, end) = (whole.first, whole.end);
    let fewer = random.between(0, usize::from(first)) as u16;
    match random.below(6) {
        0 => Window {
            weekday: random.one_of(&[7, 7, 8, 255], 7),
            ..whole
        },
        1 => Window {
            end: first,
            ..whole
        },
        2 => Window {
            end: fewer,
            ..whole
        },
        3 => Window {
            end: random.one_of(&[1441, 1441, 1442, 65_535], 1441),
            ..whole
        },
        4 => Window {
            first: 1440,
            end: random.one_of(&[1440, 1441], 1440),
            ..whole
        },
        // In the other byte order.
        _ => Window {
            first: end,
            end: first.min(end - 1),
            ..whole
        },
    }
}

/// The calendars that stand whole in front of the bytes, and what is behind them. Their windows may be any.
fn calendars_of(bytes: &[u8]) -> (Calendars, &[u8]) {
    let mut calendars = Vec::new();
    let mut rest = bytes;
    while let Some((calendar, behind)) = Calendar::at_front(rest) {
        calendars.push(calendar);
        rest = behind;
    }
    (Calendars(calendars), rest)
}

impl Calendar {
    fn at_front(bytes: &[u8]) -> Option<(Calendar, &[u8])> {
        let [low, high, kind_low, kind_high, rest @ ..] = bytes else {
            return None;
        };
        let length = usize::from(u16::from_le_bytes([*low, *high]));
        let kind = u16::from_le_bytes([*kind_low, *kind_high]);
        let (content, behind) = rest.split_at_checked(length)?;
        let (count, windows) = content.split_first()?;
        if kind != CALENDAR || windows.len() != 5 * usize::from(*count) {
            return None;
        }
        let window = |bytes: &[u8]| Window {
            weekday: bytes[0],
            first: u16::from_le_bytes([bytes[1], bytes[2]]),
            end: u16::from_le_bytes([bytes[3], bytes[4]]),
        };
        let windows = windows.chunks(5).map(window).collect();
        Some((Calendar(windows), behind))
    }
}

/// The same calendars in other words, where they have some: windows in another order, some twice, some in
/// two parts that touch. Those that are broken stay so.
pub fn in_other_words((seed, index): Place, bytes: &[u8]) -> Option<Vec<u8>> {
    let mut random = Random::new(!seed, index);
    let (mut calendars, rest) = calendars_of(bytes);
    for calendar in &mut calendars.0 {
        calendar.reword(&mut random);
    }
    let made = [&calendars.bytes(), rest].concat();
    (made != bytes).then_some(made)
}

impl Calendar {
    fn reword(&mut self, random: &mut Random) {
        let windows = &mut self.0;
        for position in 0..windows.len() {
            let window = windows[position];
            let room = windows.len() < MOST_WINDOWS;
            match random.below(3) {
                0 if room => windows.push(window),
                1 if room && window.first.saturating_add(1) < window.end => {
                    let (first, last) = (window.first + 1, window.end - 1);
                    let middle = random.between(usize::from(first), usize::from(last)) as u16;
                    windows[position].end = middle;
                    windows.push(Window {
                        first: middle,
                        ..window
                    });
                }
                _ => {}
            }
        }
        for last in (1..windows.len()).rev() {
            windows.swap(last, random.between(0, last));
        }
    }
}

/// As many calendars, which are never open.
pub fn without_windows(bytes: &[u8]) -> Vec<u8> {
    let (mut calendars, rest) = calendars_of(bytes);
    for calendar in &mut calendars.0 {
        calendar.0.clear();
    }
    [&calendars.bytes(), rest].concat()
}
