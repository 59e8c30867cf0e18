//! "A table is kind 20", or kind 23 (E10): data to tables, with refusals 11, 12, 13, 50, 51 and 43.

use std::collections::BTreeMap;

use super::budget::Stop;
use super::by_column;
use super::terms::Monoid;

/// The stored tables by number. E9: "Records may stand in any order and numbers may be skipped".
pub type Tables = BTreeMap<u8, Table>;

/// A stored table.
pub struct Table {
    pub collection: Monoid,
    /// One for each column (E5).
    pub bounds: Vec<u32>,
    pub rows: Vec<Vec<i32>>,
}

/// "A table is kind 20"; E10: "Add kind 23, the same table rearranged".
#[derive(Clone, Copy, PartialEq, Eq)]
pub enum Kind {
    ByRow,
    ByColumn,
}

impl Kind {
    pub fn of(kind: u16) -> Option<Kind> {
        match kind {
            20 => Some(Kind::ByRow),
            23 => Some(Kind::ByColumn),
            _ => None,
        }
    }
}

/// E9: "The number is written as one byte, 0 to 7".
const GREATEST_NUMBER: u8 = 7;

/// E5: "one four-byte unsigned bound per column, at most 2^31".
const GREATEST_BOUND: u32 = 1 << 31;

/// A record: "two bytes of content length, two bytes of kind, content; little-endian".
pub struct Record<'a> {
    pub kind: u16,
    pub content: &'a [u8],
    /// What stands behind the record in its parent's content.
    pub rest: &'a [u8],
}

/// The record at the front of the bytes, or nothing where it is cut short.
pub fn first_record(bytes: &[u8]) -> Option<Record<'_>> {
    let length = usize::from(two_bytes(bytes, 0)?);
    let kind = two_bytes(bytes, 2)?;
    let behind = bytes.get(4..)?;
    Some(Record {
        kind,
        content: behind.get(..length)?,
        rest: behind.get(length..)?,
    })
}

/// Two little-endian bytes at an offset.
pub fn two_bytes(bytes: &[u8], offset: usize) -> Option<u16> {
    let pair = bytes.get(offset..offset.checked_add(2)?)?;
    Some(u16::from_le_bytes(pair.try_into().ok()?))
}

/// Four little-endian signed bytes, no more and no fewer.
pub fn four_signed_bytes(bytes: &[u8]) -> Option<i32> {
    Some(i32::from_le_bytes(bytes.try_into().ok()?))
}

/// The same, unsigned.
pub fn four_unsigned_bytes(bytes: &[u8]) -> Option<u32> {
    Some(u32::from_le_bytes(bytes.try_into().ok()?))
}

/// "Data is 0 to 8 such records"; refusals "earliest record first, 13 before 11 before 12"; E5: 43 is
/// "at the same record, after 12"; E9: "50, a number above 7; 51, a number already used; both at their
/// record, after 12 and before 43, 50 first". A ninth record is 13 whatever its number. E10: "refusals ..
/// take kind 23 wherever they name 20", so one number in both kinds is 51.
pub fn read_tables(data: &[u8]) -> Result<Tables, Stop> {
    let mut tables = Tables::new();
    let mut left = data;
    while !left.is_empty() {
        if tables.len() >= 8 {
            return Err(Stop::Refused(13));
        }
        let record = first_record(left).ok_or(Stop::Refused(11))?;
        let kind = Kind::of(record.kind).ok_or(Stop::Refused(11))?;
        let used = |number: &u8| tables.contains_key(number);
        let (number, table) = well_formed(kind, record.content, used)?;
        tables.insert(number, table);
        left = record.rest;
    }
    Ok(tables)
}

/// The table that a record of that kind holds, with its number, or the record's own refusal: 12, 50, 51
/// where the number is used, 43.
pub fn well_formed(
    kind: Kind,
    content: &[u8],
    used: impl Fn(&u8) -> bool,
) -> Result<(u8, Table), Stop> {
    let (number, table) = read_table(kind, content).ok_or(Stop::Refused(12))?;
    if number > GREATEST_NUMBER {
        return Err(Stop::Refused(50));
    }
    if used(&number) {
        return Err(Stop::Refused(51));
    }
    if !keeps_bounds(&table) {
        return Err(Stop::Refused(43));
    }
    Ok((number, table))
}

/// "one byte of collection (1 list, 2 bag, 3 set), one byte of columns (1 to 8), two bytes of
/// rows (0 to 1,024), then the cells row by row, signed, four bytes each"; E5: "Between its row count
/// and its cells" the bounds; E9: its number, any byte here, "ahead of the collection byte"; E10: kind 23
/// "has the header and bounds of kind 20 and the same length".
fn read_table(kind: Kind, content: &[u8]) -> Option<(u8, Table)> {
    let (number, content) = content.split_first()?;
    let collection = Monoid::of_byte(*content.first()?).filter(|monoid| monoid.is_collection())?;
    let columns = usize::from(*content.get(1)?);
    let rows = usize::from(two_bytes(content, 2)?);
    let row_bytes = columns.checked_mul(4)?;
    let (bounds, cells) = content.get(4..)?.split_at_checked(row_bytes)?;
    let in_range = (1..=8).contains(&columns) && rows <= 1024;
    if !in_range || row_bytes.checked_mul(rows)? != cells.len() {
        return None;
    }
    let rows = match kind {
        Kind::ByRow => cells
            .chunks_exact(row_bytes)
            .map(|row| row.chunks_exact(4).map(four_signed_bytes).collect())
            .collect::<Option<Vec<_>>>()?,
        Kind::ByColumn => by_column::rows_of(cells, rows, columns)?,
    };
    let bounds = bounds
        .chunks_exact(4)
        .map(four_unsigned_bytes)
        .collect::<Option<Vec<_>>>()?;
    let table = Table {
        collection,
        bounds,
        rows,
    };
    Some((*number, table))
}

/// E5: "43, a bound over 2^31 or a cell beyond its column's". The magnitude is that of a whole number:
/// 2^31 for the least cell. Of kind 23 it is the cell that comes out, not the folded difference.
fn keeps_bounds(table: &Table) -> bool {
    let bounds = &table.bounds;
    let row_keeps = |row: &Vec<i32>| {
        row.iter()
            .zip(bounds)
            .all(|(cell, bound)| cell.unsigned_abs() <= *bound)
    };
    bounds.iter().all(|bound| *bound <= GREATEST_BOUND) && table.rows.iter().all(row_keeps)
}
