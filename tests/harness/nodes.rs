//! Records to be written: "two bytes of content length, two bytes of kind, content".

use super::by_column::columns_of;

pub const LIST: u8 = 1;
pub const BAG: u8 = 2;
pub const SET: u8 = 3;
pub const SUM: u8 = 4;
pub const MAX: u8 = 5;
pub const SOME: u8 = 6;
pub const ALL: u8 = 7;
pub const MIN: u8 = 8;

pub const NUMBER: u16 = 1;
pub const TRUTH: u16 = 2;
pub const NAME: u16 = 3;
pub const FIELD: u16 = 4;
pub const RECORD: u16 = 5;
pub const PLUS: u16 = 6;
pub const MINUS: u16 = 7;
pub const TIMES: u16 = 8;
pub const EQUAL: u16 = 9;
pub const LESS: u16 = 10;
pub const AND: u16 = 11;
pub const OR: u16 = 12;
pub const NOT: u16 = 13;
pub const COMPREHENSION: u16 = 14;
pub const TABLE: u16 = 15;
pub const GENERATOR: u16 = 16;
pub const BINDING: u16 = 17;
pub const CONDITION: u16 = 18;
pub const CHOICE: u16 = 19;
pub const STORED: u16 = 20;
/// An open minute, and a stored calendar (document 02, E4).
pub const OPEN: u16 = 21;
pub const CALENDAR: u16 = 24;
/// A tariff (document 02, E6).
pub const TARIFF: u16 = 22;
/// A stored table by column (document 02, E10).
pub const BY_COLUMN: u16 = 23;

/// A record of a question: its kind, its own bytes, the records in it.
#[derive(Clone, Debug)]
pub struct Node {
    pub kind: u16,
    pub fixed: Vec<u8>,
    pub parts: Vec<Node>,
}

fn node(kind: u16, fixed: &[u8], parts: Vec<Node>) -> Node {
    Node {
        kind,
        fixed: fixed.to_vec(),
        parts,
    }
}

pub fn number(value: i32) -> Node {
    node(NUMBER, &value.to_le_bytes(), Vec::new())
}

pub fn truth(value: bool) -> Node {
    node(TRUTH, &[u8::from(value)], Vec::new())
}

pub fn name(value: u16) -> Node {
    node(NAME, &value.to_le_bytes(), Vec::new())
}

pub fn field(index: u8, inner: Node) -> Node {
    node(FIELD, &[index], vec![inner])
}

pub fn record(fields: Vec<Node>) -> Node {
    node(RECORD, &[], fields)
}

pub fn two(kind: u16, left: Node, right: Node) -> Node {
    node(kind, &[], vec![left, right])
}

pub fn not(inner: Node) -> Node {
    node(NOT, &[], vec![inner])
}

pub fn choice(truth: Node, first: Node, second: Node) -> Node {
    node(CHOICE, &[], vec![truth, first, second])
}

pub fn open(calendar: u8, minute: Node) -> Node {
    node(OPEN, &[calendar], vec![minute])
}

pub fn table(number: u8) -> Node {
    node(TABLE, &[number], Vec::new())
}

pub fn generator(name: u16, inner: Node) -> Node {
    node(GENERATOR, &name.to_le_bytes(), vec![inner])
}

pub fn binding(name: u16, inner: Node) -> Node {
    node(BINDING, &name.to_le_bytes(), vec![inner])
}

pub fn condition(inner: Node) -> Node {
    node(CONDITION, &[], vec![inner])
}

pub fn comprehension(monoid: u8, qualifiers: Vec<Node>, head: Node) -> Node {
    let mut parts = qualifiers;
    parts.push(head);
    node(COMPREHENSION, &[monoid], parts)
}

impl Node {
    /// The record at the front, as far as its bytes keep the rules.
    pub fn of_bytes(bytes: &[u8]) -> Option<Node> {
        Node::first_of(bytes).map(|(read, _)| read)
    }

    /// The same, and what stands behind it.
    fn first_of(bytes: &[u8]) -> Option<(Node, &[u8])> {
        let [low, high, kind, 0, rest @ ..] = bytes else {
            return None;
        };
        let (length, kind) = (u16::from_le_bytes([*low, *high]), u16::from(*kind));
        let (content, behind) = rest.split_at_checked(usize::from(length))?;
        let (own, mut left) = content.split_at_checked(own_bytes(kind, content.len()))?;
        let mut read = node(kind, own, Vec::new());
        while !left.is_empty() {
            let (part, rest) = Node::first_of(left)?;
            read.parts.push(part);
            left = rest;
        }
        Some((read, behind))
    }

    pub fn bytes(&self) -> Vec<u8> {
        let mut content = self.fixed.clone();
        for part in &self.parts {
            content.extend(part.bytes());
        }
        record_bytes(self.kind, &content)
    }

    /// Records in the tree.
    pub fn count(&self) -> usize {
        self.parts
            .iter()
            .map(Node::count)
            .fold(1, usize::saturating_add)
    }

    /// Whether a record of the kind is in the tree.
    pub fn holds(&self, kind: u16) -> bool {
        self.kind == kind || self.parts.iter().any(|part| part.holds(kind))
    }

    /// The record at a position of the written order; the first is 0.
    pub fn at(&mut self, position: usize) -> Option<&mut Node> {
        let Some(mut left) = position.checked_sub(1) else {
            return Some(self);
        };
        for part in &mut self.parts {
            let count = part.count();
            if left < count {
                return part.at(left);
            }
            left = left.saturating_sub(count);
        }
        None
    }
}

/// Bytes of a content of so many that stand before the records in it.
pub fn own_bytes(kind: u16, content: usize) -> usize {
    match kind {
        NUMBER | TRUTH | NAME | TABLE => content,
        FIELD | COMPREHENSION | OPEN => 1,
        GENERATOR | BINDING => 2,
        _ => 0,
    }
}

/// A record with a length that fits its content.
pub fn record_bytes(kind: u16, content: &[u8]) -> Vec<u8> {
    let length = u16::try_from(content.len()).unwrap_or(u16::MAX);
    let mut bytes = length.to_le_bytes().to_vec();
    bytes.extend(kind.to_le_bytes());
    bytes.extend(content);
    bytes
}

/// The greatest bound that a column can have: any cell keeps it.
pub const WIDEST: u32 = 1 << 31;

/// Where the parts of a table's record begin, behind its length and kind; the bounds are the last.
pub const NUMBER_AT: usize = 4;
pub const COLLECTION_AT: usize = 5;
pub const COLUMNS_AT: usize = 6;
pub const ROWS_AT: usize = 7;
pub const BOUNDS_AT: usize = 9;

/// Numbers that a table can have.
pub const NUMBERED: usize = 8;

/// A table to be written, under any number.
#[derive(Clone, Debug)]
pub struct Stored {
    pub collection: u8,
    /// One for each column.
    pub bounds: Vec<u32>,
    pub rows: Vec<Vec<i32>>,
    /// Whether it is written as kind 23.
    pub by_column: bool,
}

impl Stored {
    /// A table by row whose columns are declared 2^31.
    pub fn wide(collection: u8, columns: usize, rows: Vec<Vec<i32>>) -> Stored {
        Stored {
            collection,
            bounds: vec![WIDEST; columns],
            rows,
            by_column: false,
        }
    }

    /// The least bound that the cells of a column keep.
    pub fn magnitude(&self, column: usize) -> u32 {
        let cells = self.rows.iter().filter_map(|row| row.get(column));
        cells.map(|cell| cell.unsigned_abs()).max().unwrap_or(0)
    }

    pub fn content(&self, number: u8) -> Vec<u8> {
        let columns = u8::try_from(self.bounds.len()).unwrap_or(u8::MAX);
        let rows = u16::try_from(self.rows.len()).unwrap_or(u16::MAX);
        let mut content = vec![number, self.collection, columns];
        content.extend(rows.to_le_bytes());
        for bound in &self.bounds {
            content.extend(bound.to_le_bytes());
        }
        if self.by_column {
            content.extend(columns_of(self));
            return content;
        }
        for cell in self.rows.iter().flatten() {
            content.extend(cell.to_le_bytes());
        }
        content
    }

    pub fn kind(&self) -> u16 {
        if self.by_column {
            BY_COLUMN
        } else {
            STORED
        }
    }

    pub fn bytes(&self, number: u8) -> Vec<u8> {
        record_bytes(self.kind(), &self.content(number))
    }
}

/// The tables numbered by place.
pub fn data_bytes(tables: &[Stored]) -> Vec<u8> {
    let numbered = (0..=u8::MAX).zip(tables);
    numbered
        .flat_map(|(number, table)| table.bytes(number))
        .collect()
}
