//! E4: "calendars, up to 4, numbered by position from 0, in a buffer of their own", with refusal 41: when
//! a minute is open, and the first open one.

use super::budget::Stop;
use super::dates::{weekday_of, DAYS};
use super::tables::{first_record, two_bytes};

/// "41, a calendar record that breaks this layout or a fifth one".
const LAYOUT: Stop = Stop::Refused(41);

/// "42, a calendar not lent".
const NOT_LENT: Stop = Stop::Refused(42);

/// The calendars that are lent.
pub struct Calendars(Vec<Calendar>);

struct Calendar(Vec<Window>);

/// "a weekday byte (0 Monday to 6 Sunday), a first minute and an end minute".
struct Window {
    weekday: u8,
    first: i128,
    end: i128,
}

const MINUTES_OF_DAY: i128 = 1440;

/// "each a record of kind 24"; any byte behind the fourth begins a fifth.
pub fn read_calendars(bytes: &[u8]) -> Result<Calendars, Stop> {
    let mut calendars = Vec::new();
    let mut left = bytes;
    while !left.is_empty() {
        let record = first_record(left).filter(|record| record.kind == 24);
        let record = record.filter(|_| calendars.len() < 4).ok_or(LAYOUT)?;
        calendars.push(read_calendar(record.content).ok_or(LAYOUT)?);
        left = record.rest;
    }
    Ok(Calendars(calendars))
}

/// "one byte of windows (0 to 32), then the windows"; two windows may have minutes in common and stand
/// in any order.
fn read_calendar(content: &[u8]) -> Option<Calendar> {
    let (count, windows) = content.split_first()?;
    let windows = windows
        .chunks(5)
        .map(read_window)
        .collect::<Option<Vec<_>>>()?;
    let fits = *count <= 32 && windows.len() == usize::from(*count);
    fits.then_some(Calendar(windows))
}

/// "a first minute and an end minute of two bytes (0 to 1,440, end after first)".
fn read_window(bytes: &[u8]) -> Option<Window> {
    let window = Window {
        weekday: *bytes.first()?,
        first: i128::from(two_bytes(bytes, 1)?),
        end: i128::from(two_bytes(bytes, 3)?),
    };
    let fits = window.weekday <= 6 && window.first < window.end && window.end <= MINUTES_OF_DAY;
    fits.then_some(window)
}

impl Calendars {
    /// "numbered by position from 0".
    pub fn is_lent(&self, number: u64) -> bool {
        self.lent(number).is_ok()
    }

    fn lent(&self, number: u64) -> Result<&Calendar, Stop> {
        let place = usize::try_from(number).map_err(|_| NOT_LENT)?;
        self.0.get(place).ok_or(NOT_LENT)
    }

    /// "true when that minute lies in a window of its weekday".
    pub fn is_open(&self, number: u64, minute: i128) -> Result<bool, Stop> {
        let calendar = self.lent(number)?;
        let Some((day, of_day)) = day_and_minute(minute) else {
            return Ok(false);
        };
        let mut windows = calendar.windows_of(day);
        Ok(windows.any(|window| (window.first..window.end).contains(&of_day)))
    }

    /// "the first open minute at or after a given signed one, or none exactly if no such minute exists".
    /// What is open stays so a week later, while in the years: a week and a day hold the first, if there
    /// is one.
    pub fn first_open(&self, number: u64, minute: i64) -> Result<Option<u64>, Stop> {
        let calendar = self.lent(number)?;
        let from = i128::from(minute).max(0);
        let Some((first_day, _)) = day_and_minute(from) else {
            return Ok(None);
        };
        let days = (first_day..=first_day + 7).filter(|day| *day < DAYS);
        let open = days.flat_map(|day| {
            let midnight = i128::from(day) * MINUTES_OF_DAY;
            calendar.windows_of(day).filter_map(move |window| {
                let first = (midnight + window.first).max(from);
                (first < midnight + window.end).then_some(first)
            })
        });
        Ok(open.min().and_then(|minute| u64::try_from(minute).ok()))
    }
}

impl Calendar {
    fn windows_of(&self, day: u64) -> impl Iterator<Item = &Window> {
        let weekday = weekday_of(day);
        let of_day = move |window: &&Window| u64::from(window.weekday) == weekday;
        self.0.iter().filter(of_day)
    }
}

/// "minute 0 is its midnight", day 0's. Nothing where the minute lies outside the years.
fn day_and_minute(minute: i128) -> Option<(u64, i128)> {
    let day = u64::try_from(minute.div_euclid(MINUTES_OF_DAY)).ok()?;
    (day < DAYS).then_some((day, minute.rem_euclid(MINUTES_OF_DAY)))
}
