//! E4: "Day 0 is 2000-01-01, a Saturday; .. years 2000 to 2399, 146,097 days, Gregorian": from year, month
//! and day to the day number and back, with refusal 41.

use super::budget::Stop;

/// "a date or day number that does not exist in those years".
const MISSING: Stop = Stop::Refused(41);

const FIRST_YEAR: u64 = 2000;
const LAST_YEAR: u64 = 2399;

pub const DAYS: u64 = 146_097;

/// "0 Monday to 6 Sunday"; day 0 is a Saturday.
pub fn weekday_of(day: u64) -> u64 {
    (day + 5) % 7
}

/// The Gregorian rule: every fourth year, of the centuries every fourth.
fn is_leap(year: u64) -> bool {
    match year % 100 {
        0 => year % 400 == 0,
        _ => year % 4 == 0,
    }
}

fn days_of_year(year: u64) -> u64 {
    (1..=12).map(|month| days_of_month(year, month)).sum()
}

/// 0 for a month that does not exist.
fn days_of_month(year: u64, month: u64) -> u64 {
    match month {
        1 | 3 | 5 | 7 | 8 | 10 | 12 => 31,
        4 | 6 | 9 | 11 => 30,
        2 if is_leap(year) => 29,
        2 => 28,
        _ => 0,
    }
}

/// The days before the date.
pub fn day_number(year: u64, month: u64, day: u64) -> Result<u64, Stop> {
    let in_years = (FIRST_YEAR..=LAST_YEAR).contains(&year);
    if !in_years || day == 0 || day > days_of_month(year, month) {
        return Err(MISSING);
    }
    let years: u64 = (FIRST_YEAR..year).map(days_of_year).sum();
    let months: u64 = (1..month).map(|month| days_of_month(year, month)).sum();
    Ok(years + months + day - 1)
}

/// Year, month and day of a day number: whole years are left, then whole months.
pub fn date(day: u64) -> Result<(u64, u64, u64), Stop> {
    if day >= DAYS {
        return Err(MISSING);
    }
    let mut left = day;
    let mut year = FIRST_YEAR;
    while left >= days_of_year(year) {
        left -= days_of_year(year);
        year += 1;
    }
    let mut month = 1;
    while left >= days_of_month(year, month) {
        left -= days_of_month(year, month);
        month += 1;
    }
    Ok((year, month, left + 1))
}
