//! Columns and what they declare (document 02, E5): products of cells whose bound is near 2^62 by the
//! bounds of their columns, over cells as large as they may be, and data that breaks its bounds.

use super::limits::{power_of_two, question_about};
use super::nodes::*;
use super::random::Random;

const TABLES: usize = 2;
const COLUMNS: usize = 3;

/// A question about a product of cells. Columns that it does not name declare much more or much less,
/// so that the bound of another column, or of the other table, shows.
pub fn random_columns(random: &mut Random) -> (Vec<Stored>, Node) {
    let monoid = random.one_of(&[SUM, SUM, SUM, MAX, MIN], SUM);
    let collection = match monoid {
        SUM => random.one_of(&[LIST, BAG], BAG),
        _ => random.one_of(&[LIST, BAG, SET], SET),
    };
    let mut asked = Asked {
        random,
        declared: [[None; COLUMNS]; TABLES],
        rows: Vec::new(),
        plain: false,
    };
    let total = asked.total(monoid, collection);
    let declared = asked.declared;
    let tables = declared.map(|declared| table_of(random, collection, &declared));
    let question = match random.below(3) {
        0 => question_about(random, Vec::new(), total),
        _ => total,
    };
    (tables.to_vec(), question)
}

/// Eight tables of 1,024 rows of 8 columns, each cell as large as its column allows: the most that a call
/// can have to judge.
pub fn full_tables(by_column: bool) -> Vec<u8> {
    let table = Stored {
        collection: BAG,
        bounds: vec![300; 8],
        rows: vec![vec![-300; 8]; 1024],
        by_column,
    };
    data_bytes(&vec![table; 8])
}

/// The same tables with each column declared 2^31. The data is known to be well formed.
pub fn widened(data: &[u8]) -> Vec<u8> {
    let mut wide = data.to_vec();
    let mut at = 0;
    while at < wide.len() {
        let columns = usize::from(wide[at + COLUMNS_AT]);
        for bound in wide[at + BOUNDS_AT..].chunks_mut(4).take(columns) {
            bound.copy_from_slice(&WIDEST.to_le_bytes());
        }
        at += 4 + usize::from(u16::from_le_bytes([wide[at], wide[at + 1]]));
    }
    wide
}

/// A table of few rows.
fn table_of(random: &mut Random, collection: u8, declared: &[Option<u32>; COLUMNS]) -> Stored {
    let others = [0, 1, WIDEST - 1, WIDEST];
    let bounds = declared.map(|bound| match bound {
        Some(bound) => beside(random, bound),
        None => random.one_of(&others, WIDEST),
    });
    let count = random.below(4);
    full_table(random, collection, bounds.to_vec(), count)
}

/// Mostly the bound itself, else one more or less.
fn beside(random: &mut Random, bound: u32) -> u32 {
    match random.below(6) {
        0 => bound.saturating_add(1).min(WIDEST),
        1 => bound.saturating_sub(1),
        _ => bound,
    }
}

/// So many rows of cells that keep their column's bounds, many of them just so.
fn full_table(random: &mut Random, collection: u8, bounds: Vec<u32>, count: usize) -> Stored {
    let mut row = |_| {
        let cells = bounds.iter().map(|bound| cell_within(random, *bound));
        cells.collect()
    };
    let rows = (0..count).map(&mut row).collect();
    Stored {
        collection,
        bounds,
        rows,
        by_column: false,
    }
}

/// A cell that keeps a bound.
fn cell_within(random: &mut Random, bound: u32) -> i32 {
    let bound = i64::from(bound);
    let any = i64::try_from(random.next() >> 1).unwrap_or(0) % (2 * bound + 1) - bound;
    let cell = random.one_of(&[-bound, bound, 0, 1, any, any], 0);
    let cell = cell.clamp(-bound, bound);
    i32::try_from(cell).unwrap_or(i32::MAX)
}

struct Asked<'a> {
    random: &'a mut Random,
    /// By table and column, where a factor has been taken from there.
    declared: [[Option<u32>; COLUMNS]; TABLES],
    /// The generators: name and table, and the columns in the order in which the row has them.
    rows: Vec<(u16, usize, [u8; COLUMNS])>,
    /// Whether generators range over tables and cells are fields of their names.
    plain: bool,
}

impl Asked<'_> {
    /// A comprehension over 1 to 3 generators, whose head is a product with bound 2^62 or next to it,
    /// the generators counted in.
    fn total(&mut self, monoid: u8, collection: u8) -> Node {
        let generators = self.random.between(1, 3);
        self.plain = self.random.chance(50);
        let mut qualifiers: Vec<Node> = (0..generators).map(|_| self.range(collection)).collect();
        let counted = if monoid == SUM { 10 * generators } else { 0 };
        let wanted = self.random.one_of(&[61, 62, 62, 62, 63], 62);
        let head = self.product(wanted - counted, &mut qualifiers);
        let head = match self.random.below(5) {
            0 => two(PLUS, head, number(1)),
            1 => two(MINUS, number(-1), head),
            _ => head,
        };
        comprehension(monoid, qualifiers, head)
    }

    /// A generator over a table, over its rows again, or over its rows with the columns turned round.
    fn range(&mut self, collection: u8) -> Node {
        let own = u16::try_from(self.rows.len()).unwrap_or(0);
        let at = self.random.below(TABLES);
        let stored = table(u8::try_from(at).unwrap_or(0));
        let inner = own.saturating_add(100);
        let (source, columns) = match self.random.below(4) {
            _ if self.plain => (stored, [0, 1, 2]),
            0 => {
                let range = vec![generator(inner, stored)];
                (comprehension(collection, range, name(inner)), [0, 1, 2])
            }
            1 => {
                let cells = [2, 0, 1].map(|column| field(column, name(inner)));
                let range = vec![generator(inner, stored)];
                let turned = comprehension(collection, range, record(cells.to_vec()));
                (turned, [2, 0, 1])
            }
            _ => (stored, [0, 1, 2]),
        };
        self.rows.push((own, at, columns));
        generator(own, source)
    }

    /// Cells and constants with bounds that come to 2^exponent.
    fn product(&mut self, exponent: usize, qualifiers: &mut Vec<Node>) -> Node {
        let mut left = exponent;
        let mut product: Option<Node> = None;
        let factors = self.random.one_of(&[1, 2, 2, 2, 3], 2);
        for after in (0..factors).rev() {
            let (least, most) = (left.saturating_sub(31).min(31), left.min(31));
            let wanted = match after {
                0 => most,
                _ => self.random.between(least, most),
            };
            let (cell, reached) = self.cell(wanted, qualifiers);
            // A column that was taken before declares what it did then, perhaps too much.
            if reached <= left {
                left -= reached;
                product = Some(times(product, cell));
            }
        }
        if left > 0 || product.is_none() {
            product = Some(times(product, power_of_two(self.random, left)));
        }
        product.unwrap_or_else(|| number(1))
    }

    /// A cell of bound 2^wanted, or of what its column declares already; and that exponent.
    fn cell(&mut self, wanted: usize, qualifiers: &mut Vec<Node>) -> (Node, usize) {
        let index = self.random.below(COLUMNS);
        let first = (0, 0, [0, 1, 2]);
        let (own, at, columns) = self.random.one_of(&self.rows, first);
        let column = usize::from(columns[index]);
        let bound = self.declared[at][column].get_or_insert(1 << wanted);
        let reached = bound.trailing_zeros() as usize;
        let index = u8::try_from(index).unwrap_or(0);
        let cell = field(index, name(own));
        let bound = u16::try_from(qualifiers.len() + 50).unwrap_or(50);
        let cell = match self.random.below(8) {
            _ if self.plain => cell,
            // By a name of the cell, or of its row.
            0 => {
                qualifiers.push(binding(bound, cell));
                name(bound)
            }
            1 => {
                qualifiers.push(binding(bound, name(own)));
                field(index, name(bound))
            }
            2 => field(1, record(vec![number(i32::MIN), cell])),
            3 => choice(truth(self.random.chance(50)), cell, number(0)),
            _ => cell,
        };
        (cell, reached)
    }
}

fn times(product: Option<Node>, factor: Node) -> Node {
    match product {
        Some(product) => two(TIMES, product, factor),
        None => factor,
    }
}

/// "43, a bound over 2^31 or a cell beyond its column's": one table of any shape and of either kind, its
/// other cells just within their bounds.
pub fn table_beyond(random: &mut Random) -> Stored {
    let columns = random.between(1, 8);
    let bound = |random: &mut Random| {
        let bounds = [0, 1, 2, 300, 65_535, WIDEST - 1, WIDEST];
        random.one_of(&bounds, 300)
    };
    let bounds = (0..columns).map(|_| bound(random)).collect();
    let count = random.one_of(&[0, 1, 1, 2, 3, 4, 5, 9, 33, 300], 1);
    let collection = random.one_of(&[LIST, BAG, SET], BAG);
    let mut table = full_table(random, collection, bounds, count);
    table.by_column = random.chance(50);
    let column = random.below(columns);
    let row = random.below(count);
    match table.rows.get_mut(row) {
        Some(cells) if random.chance(80) => {
            let bound = table.bounds[column].min(WIDEST - 1);
            table.bounds[column] = bound;
            cells[column] = just_beyond(random, bound);
        }
        _ => {
            let any = u32::try_from(random.next() >> 33).unwrap_or(0);
            let over = [WIDEST + 1, WIDEST + 1, u32::MAX, WIDEST + any.max(1)];
            table.bounds[column] = random.one_of(&over, u32::MAX);
        }
    }
    table
}

/// The nearest cell beyond a bound below 2^31, on either side.
fn just_beyond(random: &mut Random, bound: u32) -> i32 {
    let beyond = i64::from(bound) + 1;
    let beyond = if random.chance(50) { beyond } else { -beyond };
    i32::try_from(beyond).unwrap_or(i32::MIN)
}
