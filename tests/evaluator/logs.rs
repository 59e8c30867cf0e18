//! E11: "Ship's log against quay log": two list tables of seconds paired, with refusals 53, 54 and 52.

use std::collections::VecDeque;

use super::budget::Stop;
use super::tables::{read_tables, Tables};
use super::terms::Monoid;

/// "a tolerance of 0 to 3,600 seconds".
const GREATEST_TOLERANCE: u64 = 3600;

/// "with every column bound 1,023".
const BOUND: u32 = 1023;

/// A row that is left: its position from 0, and its seconds.
type Row = (u32, i64);

/// "53, a time column that falls or a table that is absent or not a list": "seconds in column 0". A number
/// above 7 is absent.
fn log_of(tables: &Tables, number: u64) -> Result<VecDeque<Row>, Stop> {
    let number = u8::try_from(number).map_err(|_| Stop::Refused(53))?;
    let table = tables.get(&number).ok_or(Stop::Refused(53))?;
    if table.collection != Monoid::List {
        return Err(Stop::Refused(53));
    }
    let seconds: Vec<i64> = table.rows.iter().map(|row| i64::from(row[0])).collect();
    if seconds.windows(2).any(|two| two[1] < two[0]) {
        return Err(Stop::Refused(53));
    }
    Ok((0..).zip(seconds).collect())
}

/// "three tables: pairs of row positions, singles of the first, singles of the second, each in time order".
#[derive(Default)]
struct Paired {
    pairs: Vec<Vec<u32>>,
    first_singles: Vec<Vec<u32>>,
    second_singles: Vec<Vec<u32>>,
}

/// "take the earliest row left in each: no further apart than the tolerance they pair, else the earlier is
/// single; once one table is used up, the other's rest is single".
fn paired(mut first: VecDeque<Row>, mut second: VecDeque<Row>, tolerance: u64) -> Paired {
    let mut told = Paired::default();
    while let (Some((i, x)), Some((j, y))) = (first.front().copied(), second.front().copied()) {
        if x.abs_diff(y) <= tolerance {
            told.pairs.push(vec![i, j]);
            first.pop_front();
            second.pop_front();
        } else if x < y {
            told.first_singles.push(vec![i]);
            first.pop_front();
        } else {
            told.second_singles.push(vec![j]);
            second.pop_front();
        }
    }
    told.first_singles
        .extend(first.iter().map(|(i, _)| vec![*i]));
    told.second_singles
        .extend(second.iter().map(|(j, _)| vec![*j]));
    told
}

/// "list records of kind 20": one of that number, with so many columns.
fn list_record(number: u8, columns: u8, rows: &[Vec<u32>]) -> Vec<u8> {
    let mut content = vec![number, 1, columns];
    content.extend((rows.len() as u16).to_le_bytes());
    for _ in 0..columns {
        content.extend(BOUND.to_le_bytes());
    }
    content.extend(rows.iter().flatten().flat_map(|cell| cell.to_le_bytes()));
    let mut record = (content.len() as u16).to_le_bytes().to_vec();
    record.extend(20u16.to_le_bytes());
    record.extend(content);
    record
}

/// The three records "one behind the other", into a buffer of so many bytes. "53 ..; 54, a tolerance outside
/// its range; then 52 for this buffer; in that order, after the data".
pub fn pair_logs(
    data: &[u8],
    first: u64,
    second: u64,
    tolerance: u64,
    target_bytes: usize,
) -> Result<Vec<u8>, Stop> {
    let tables = read_tables(data)?;
    let (first, second) = (log_of(&tables, first)?, log_of(&tables, second)?);
    if tolerance > GREATEST_TOLERANCE {
        return Err(Stop::Refused(54));
    }
    let told = paired(first, second, tolerance);
    let records = [
        list_record(5, 2, &told.pairs),
        list_record(6, 1, &told.first_singles),
        list_record(7, 1, &told.second_singles),
    ]
    .concat();
    if target_bytes < records.len() {
        return Err(Stop::Refused(52));
    }
    Ok(records)
}
