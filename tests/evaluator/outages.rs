//! E12: "How many outages we survive": each subset of a table's rows packed anew and read as any data is; refusals 55
//! and 56.

use super::budget::{Stop, FAULT};
use super::tables::{first_record, read_tables, Table, Tables};
use super::terms::{Comprehension, Monoid};

/// "a table of at most 12 rows".
const MOST_ROWS: usize = 12;

/// "For a question whose monoid is some or all": its own, as typed. "55, another monoid".
pub fn check_monoid(question: &Comprehension) -> Result<(), Stop> {
    match question.monoid {
        Monoid::Some | Monoid::All => Ok(()),
        _ => Err(Stop::Refused(55)),
    }
}

/// "56, an absent table or one with more than 12 rows". A number above 7 is absent; whether the question names the
/// table does not matter.
pub fn table_of(tables: &Tables, number: u64) -> Result<(u8, &Table), Stop> {
    let number = u8::try_from(number).map_err(|_| Stop::Refused(56))?;
    let table = tables.get(&number).ok_or(Stop::Refused(56))?;
    if table.rows.len() > MOST_ROWS {
        return Err(Stop::Refused(56));
    }
    Ok((number, table))
}

/// "over every subset of its rows, taken by position (the others removed, order kept)": the tables of the data in which
/// that table has only the rows whose bit is set. Equal rows are two positions.
pub fn with_rows_of(data: &[u8], number: u8, table: &Table, subset: u32) -> Result<Tables, Stop> {
    let kept = (0..)
        .zip(&table.rows)
        .filter(|(row, _)| subset >> row & 1 == 1);
    let rows: Vec<&Vec<i32>> = kept.map(|(_, row)| row).collect();
    let mut packed = Vec::new();
    let mut left = data;
    while !left.is_empty() {
        let record = first_record(left).ok_or(FAULT)?;
        match record.content.first() {
            Some(own) if *own == number => {
                packed.extend(record_of(record.content, &rows).ok_or(FAULT)?)
            }
            _ => packed.extend(&left[..left.len() - record.rest.len()]),
        }
        left = record.rest;
    }
    // Fewer rows are refused by nothing that all of them are not refused by.
    read_tables(&packed).map_err(|_| FAULT)
}

/// A record of kind 20 with number, collection, columns and bounds of that content, and these rows.
fn record_of(content: &[u8], rows: &[&Vec<i32>]) -> Option<Vec<u8>> {
    let columns = usize::from(*content.get(2)?);
    let mut packed = content.get(..5 + 4 * columns)?.to_vec();
    packed[3..5].copy_from_slice(&(rows.len() as u16).to_le_bytes());
    packed.extend(
        rows.iter()
            .flat_map(|row| row.iter())
            .flat_map(|cell| cell.to_le_bytes()),
    );
    let mut record = (packed.len() as u16).to_le_bytes().to_vec();
    record.extend(20u16.to_le_bytes());
    record.extend(packed);
    Some(record)
}
