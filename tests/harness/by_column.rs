//! Tables by column (document 02, E10): written and read back, made of either kind, and data with its
//! tables turned into the other kind.

use super::nodes::*;
use super::random::Random;
use super::tally::Place;

/// Rows that a table can have.
pub const MOST_ROWS: usize = 1024;

/// The cells column by column, each as its folded difference from the one above.
pub fn columns_of(table: &Stored) -> Vec<u8> {
    let columns = 0..table.bounds.len();
    let stored = columns.flat_map(|column| {
        let mut above: i32 = 0;
        let cells = table.rows.iter().filter_map(move |row| row.get(column));
        cells.flat_map(move |cell| {
            let difference = cell.wrapping_sub(std::mem::replace(&mut above, *cell));
            ((difference << 1) ^ (difference >> 31)).to_le_bytes()
        })
    });
    stored.collect()
}

/// The rows that folded differences stand for.
fn rows_of(stored: &[i32], rows: usize, columns: usize) -> Vec<Vec<i32>> {
    let mut table = vec![Vec::new(); rows];
    for column in stored.chunks(rows.max(1)).take(columns) {
        let mut above: i32 = 0;
        for (row, folded) in table.iter_mut().zip(column) {
            let difference = ((*folded as u32) >> 1) as i32 ^ -(folded & 1);
            above = above.wrapping_add(difference);
            row.push(above);
        }
    }
    table
}

impl Stored {
    /// The table of a record of either kind whose collection, columns, rows and length fit, its number, and
    /// where the record ends. Its number and its cells may be any.
    pub fn at_front(data: &[u8]) -> Option<(Stored, u8, usize)> {
        let header = data.get(..BOUNDS_AT)?;
        let two_bytes = |at: usize| u16::from_le_bytes([header[at], header[at + 1]]);
        let (kind, collection) = (two_bytes(2), header[COLLECTION_AT]);
        let columns = usize::from(header[COLUMNS_AT]);
        let count = usize::from(two_bytes(ROWS_AT));
        let end = BOUNDS_AT + 4 * columns * (1 + count);
        let ranges = (LIST..=SET).contains(&collection) && (1..=8).contains(&columns);
        let whole = is_table(kind) && usize::from(two_bytes(0)) + NUMBER_AT == end;
        if !ranges || !whole || count > MOST_ROWS {
            return None;
        }
        let (bounds, cells) = data.get(BOUNDS_AT..end)?.split_at(4 * columns);
        let cells: Vec<i32> = cells.chunks(4).map(four_bytes).collect();
        let table = Stored {
            collection,
            bounds: bounds.chunks(4).map(|b| four_bytes(b) as u32).collect(),
            rows: match kind {
                BY_COLUMN => rows_of(&cells, count, columns),
                _ => cells.chunks(columns).map(<[i32]>::to_vec).collect(),
            },
            by_column: kind == BY_COLUMN,
        };
        Some((table, header[NUMBER_AT], end))
    }

    /// Whether a difference of two cells, one above the other, passes 32 bits.
    pub fn wraps(&self) -> bool {
        let passes = |pair: &[Vec<i32>]| {
            let mut cells = pair[0].iter().zip(&pair[1]);
            cells.any(|(above, cell)| cell.checked_sub(*above).is_none())
        };
        self.rows.windows(2).any(passes)
    }
}

fn four_bytes(bytes: &[u8]) -> i32 {
    bytes.try_into().map_or(0, i32::from_le_bytes)
}

fn is_table(kind: u16) -> bool {
    kind == STORED || kind == BY_COLUMN
}

/// The tables that stand whole in front of the data.
pub fn tables_of(data: &[u8]) -> Vec<Stored> {
    let mut tables = Vec::new();
    let mut rest = data;
    while let Some((table, _, end)) = Stored::at_front(rest) {
        tables.push(table);
        rest = &rest[end..];
    }
    tables
}

/// The tables by row, by column, or each of any kind.
pub fn of_either_kind(random: &mut Random, tables: Vec<Stored>) -> Vec<Stored> {
    let by_column = random.one_of(&[0, 0, 100, 50, 50], 50);
    let turned = |table| Stored {
        by_column: random.chance(by_column),
        ..table
    };
    tables.into_iter().map(turned).collect()
}

/// The data with its tables turned into the other kind, all or some of them, where it has one. Records that
/// are broken stay so in the other kind: of one that has no table's shape the kind alone changes.
pub fn other_kind(place: Place, data: &[u8]) -> Option<Vec<u8>> {
    let mut random = Random::new(!place.0, place.1);
    let percent = random.one_of(&[100, 50], 100);
    let some = turned(data, || random.chance(percent));
    [some, all_turned(data)]
        .into_iter()
        .find(|turned| turned != data)
}

/// The data with every table turned into the other kind.
pub fn all_turned(data: &[u8]) -> Vec<u8> {
    turned(data, || true)
}

/// The data with those of its records turned that are chosen, record by record.
fn turned(data: &[u8], mut chosen: impl FnMut() -> bool) -> Vec<u8> {
    let mut made = Vec::new();
    let mut rest = data;
    while let [low, high, kind_low, kind_high, ..] = rest {
        let length = usize::from(u16::from_le_bytes([*low, *high]));
        let (record, behind) = rest.split_at(rest.len().min(NUMBER_AT + length));
        let kind = u16::from_le_bytes([*kind_low, *kind_high]);
        match Stored::at_front(record) {
            _ if !is_table(kind) || !chosen() => made.extend(record),
            Some((mut table, number, _)) => {
                table.by_column = !table.by_column;
                made.extend(table.bytes(number));
            }
            None => {
                made.extend([*low, *high]);
                made.extend((STORED + BY_COLUMN - kind).to_le_bytes());
                made.extend(&record[NUMBER_AT..]);
            }
        }
        rest = behind;
    }
    made.extend(rest);
    made
}
