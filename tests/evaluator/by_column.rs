//! E10: "kind 23, the same table rearranged: columns one after another, each cell replaced by its
//! difference from the cell above (the first from 0), the difference wrapping at 32 bits, then folded so
//! that 0, -1, 1, -2 become 0, 1, 2, 3", and both directions.

use super::budget::Stop;
use super::tables::{first_record, four_unsigned_bytes, well_formed, Kind, Table};

const HALF: i64 = 1 << 31;
const WHOLE: i64 = 1 << 32;

/// "wrapping at 32 bits": the one number from -2^31 to 2^31 - 1 that differs by a multiple of 2^32.
fn wrapped(number: i64) -> i64 {
    (number + HALF).rem_euclid(WHOLE) - HALF
}

/// "folded so that 0, -1, 1, -2 become 0, 1, 2, 3".
fn folded(number: i64) -> i64 {
    match number {
        0.. => 2 * number,
        _ => -2 * number - 1,
    }
}

/// The number that was folded.
fn unfolded(number: i64) -> i64 {
    match number % 2 {
        0 => number / 2,
        _ => -((number + 1) / 2),
    }
}

/// The columns of a table as kind 23 has them.
fn columns_of(table: &Table) -> Vec<u8> {
    let mut bytes = Vec::new();
    for column in 0..table.bounds.len() {
        let mut above: i64 = 0;
        for row in &table.rows {
            let cell = i64::from(row[column]);
            let stored = folded(wrapped(cell - above));
            bytes.extend(stored.to_le_bytes().iter().take(4));
            above = cell;
        }
    }
    bytes
}

/// The rows that kind 23 stands for: each sum from the top wraps too, so all four bytes are some cell.
pub fn rows_of(stored: &[u8], rows: usize, columns: usize) -> Option<Vec<Vec<i32>>> {
    let mut table = vec![Vec::new(); rows];
    let mut left = stored.chunks_exact(4);
    for _ in 0..columns {
        let mut above: i64 = 0;
        for row in &mut table {
            let stored = i64::from(four_unsigned_bytes(left.next()?)?);
            above = wrapped(above + unfolded(stored));
            row.push(i32::try_from(above).ok()?);
        }
    }
    Some(table)
}

/// A table's cells row by row.
fn cells_of(table: &Table) -> Vec<u8> {
    let cells = table.rows.iter().flatten();
    cells.flat_map(|cell| cell.to_le_bytes()).collect()
}

/// A record of one kind as one of the other, into a buffer of so many bytes. "For the two directions the
/// other kind, or bytes behind the record, is 11", before the record's own 12, 50 and 43; there is but one
/// record, so no 13 and no 51. "52, the target buffer shorter than the record, after that record's own
/// refusals".
pub fn turned(record: &[u8], from: Kind, target_bytes: usize) -> Result<Vec<u8>, Stop> {
    let read = first_record(record).filter(|read| read.rest.is_empty());
    let read = read.filter(|read| Kind::of(read.kind) == Some(from));
    let read = read.ok_or(Stop::Refused(11))?;
    let (_, table) = well_formed(from, read.content, |_| false)?;
    if target_bytes < record.len() {
        return Err(Stop::Refused(52));
    }
    // "It has the header and bounds of kind 20 and the same length": all but the kind.
    let (kind, cells) = match from {
        Kind::ByRow => (23u16, columns_of(&table)),
        Kind::ByColumn => (20u16, cells_of(&table)),
    };
    let mut bytes = record[..record.len() - cells.len()].to_vec();
    bytes[2..4].copy_from_slice(&kind.to_le_bytes());
    bytes.extend(cells);
    Ok(bytes)
}
