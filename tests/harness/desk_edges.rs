//! Inputs of the desk program at its edges: "over 65,536 bytes it prints "too long"", table records
//! that are cut, broken or too many, an answer that just fits into 4,096 words.

use super::by_column::all_turned;
use super::listing::listing;
use super::nodes::*;

/// Each with its name.
pub fn edges() -> Vec<(String, Vec<u8>)> {
    let (data, question) = listing();
    let whole = [data.clone(), question.clone()].concat();
    let (first, second) = data.split_at(data.len() / 2);
    let named = |name: &str, bytes: Vec<u8>| (name.to_string(), bytes);
    let mut edges = vec![
        named("empty", Vec::new()),
        named("the question alone", question.clone()),
        named("the tables alone", data.clone()),
        named("a byte behind", [&whole[..], &[0]].concat()),
        named("eight tables", [&tables(8)[..], &question].concat()),
        named("nine tables", [&tables(9)[..], &question].concat()),
        named("nine tables alone", tables(9)),
        named(
            "another kind before",
            [&record_bytes(22, &[])[..], &whole].concat(),
        ),
        named("a table behind", [&whole[..], &data].concat()),
        named(
            "a table without content",
            [&record_bytes(STORED, &[])[..], &whole].concat(),
        ),
        named(
            "a table without a number",
            [&record_bytes(STORED, &[BAG, 1, 0, 0])[..], &whole].concat(),
        ),
        named(
            "a table without bounds",
            [&record_bytes(STORED, &[2, BAG, 1, 0, 0])[..], &whole].concat(),
        ),
        named("a cell beyond", [&one_cell(2, 299)[..], &whole].concat()),
        named(
            "a bound over",
            [&one_cell(2, WIDEST + 1)[..], &whole].concat(),
        ),
        named("a ninth beyond", [&tables(8)[..], &one_cell(0, 0)].concat()),
        named(
            "the tables in the other order",
            [second, first, &question].concat(),
        ),
        named(
            "a table more, numbered 7",
            [&one_cell(7, 300)[..], &whole].concat(),
        ),
        named("a number above 7", [&one_cell(8, 299)[..], &whole].concat()),
        named(
            "a number used",
            [&data[..], &one_cell(1, 299), &question].concat(),
        ),
        named("no table of that number", [first, &question].concat()),
        named("65,536 bytes", longest()),
        named("65,537 bytes", [&longest()[..], &[0]].concat()),
        named("100,000 bytes", vec![0; 100_000]),
        named("4,096 words", rows_of(585, 7)),
        named("4,097 words", rows_of(1024, 4)),
        named("the longest words", squares()),
    ];
    edges.extend(cuts("cut", &whole));
    edges.extend(edges_of_hours(&data));
    edges.extend(edges_by_column(&data, &question));
    edges
}

/// "the desk program lends no calendar" (document 02, E4): a question that asks for one is 42 once all up to 25
/// holds, and a calendar in the input is where the question should be.
fn edges_of_hours(data: &[u8]) -> Vec<(String, Vec<u8>)> {
    let minute = || open(0, number(480));
    let asked = |head: Node| comprehension(SOME, Vec::new(), head).bytes();
    let calendar = record_bytes(CALENDAR, &[1, 5, 0xe0, 1, 0xd0, 2]);
    let listed = comprehension(LIST, vec![generator(0, table(0))], minute()).bytes();
    let named = |name: &str, parts: &[&[u8]]| (format!("hours: {name}"), parts.concat());
    vec![
        named("an open minute", &[&asked(minute())]),
        named("behind tables", &[data, &asked(minute())]),
        named("a calendar before", &[&calendar, &asked(minute())]),
        named("a calendar behind", &[data, &asked(minute()), &calendar]),
        named("a calendar alone", &[&calendar]),
        named("a minute that is a truth", &[&asked(open(0, truth(true)))]),
        named("in a list over a bag", &[data, &listed]),
    ]
}

/// An input cut at each byte.
fn cuts(name: &str, whole: &[u8]) -> Vec<(String, Vec<u8>)> {
    let cut = |at: usize| (format!("{name} at {at}"), whole[..at].to_vec());
    (1..whole.len()).map(cut).collect()
}

/// "the desk program's input take[s] kind 23 wherever" it names 20 (document 02, E10).
fn edges_by_column(data: &[u8], question: &[u8]) -> Vec<(String, Vec<u8>)> {
    let columns = all_turned(data);
    let half = data.len() / 2;
    let beyond = all_turned(&one_cell(2, 299));
    let used = all_turned(&one_cell(1, 299));
    let nothing = record_bytes(BY_COLUMN, &[]);
    let tables = all_turned(&tables(8));
    let far = vec![vec![i32::MAX], vec![i32::MIN], vec![0], vec![i32::MIN]];
    let rows = comprehension(LIST, vec![generator(0, table(0))], name(0)).bytes();
    let far = all_turned(&Stored::wide(LIST, 1, far).bytes(0));
    let named = |name: &str, parts: &[&[u8]]| (format!("by column: {name}"), parts.concat());
    let mut edges = vec![
        named("the listing", &[&columns, question]),
        named("berths alone", &[&columns[..half], &data[half..], question]),
        named(
            "bollards alone",
            &[&data[..half], &columns[half..], question],
        ),
        named("tables behind", &[data, question, &columns]),
        named("eight tables", &[&tables, question]),
        named("a ninth", &[&tables, &columns[..half], question]),
        named("no content", &[data, &nothing, question]),
        named("a cell beyond", &[&beyond, data, question]),
        named("a number used", &[data, &used, question]),
        named(
            "a number used, the other way",
            &[&columns, &one_cell(1, 299), question],
        ),
        named("differences that wrap", &[&far, &rows]),
        named("65,536 bytes", &[&all_turned(&longest())]),
        named("the longest words", &[&all_turned(&squares())]),
    ];
    let whole = [&columns, question].concat();
    edges.extend(cuts("by column: cut", &whole));
    edges
}

fn bag(columns: usize, rows: Vec<Vec<i32>>) -> Stored {
    Stored::wide(BAG, columns, rows)
}

/// So many tables of two columns and no rows.
fn tables(count: usize) -> Vec<u8> {
    data_bytes(&vec![bag(2, Vec::new()); count])
}

/// A table of one cell, 300, under a number and a bound.
fn one_cell(number: u8, bound: u32) -> Vec<u8> {
    let table = Stored {
        collection: BAG,
        bounds: vec![bound],
        rows: vec![vec![300]],
        by_column: false,
    };
    table.bytes(number)
}

/// Cells of any size and sign; the same ones each time.
fn cells(columns: usize, rows: usize) -> Stored {
    let cell = |place: usize| (place as u32).wrapping_mul(2_654_435_761) as i32;
    let row = |row: usize| {
        (0..columns)
            .map(|column| cell(row * columns + column))
            .collect()
    };
    bag(columns, (0..rows).map(row).collect())
}

/// The listing's question over tables that fill 65,536 bytes.
fn longest() -> Vec<u8> {
    let tables = [cells(2, 50), cells(8, 1024), cells(8, 1000), cells(1, 42)];
    let bytes = [data_bytes(&tables), listing().1].concat();
    assert_eq!(bytes.len(), 65_536, "bytes of the longest input");
    bytes
}

/// All rows of a table, as a bag.
fn rows_of(rows: usize, columns: usize) -> Vec<u8> {
    let question = comprehension(BAG, vec![generator(0, table(0))], name(0));
    [cells(columns, rows).bytes(0), question.bytes()].concat()
}

/// 2^62 and its opposite, twice for each of as many rows as an answer can have.
fn squares() -> Vec<u8> {
    let cell = || field(0, name(0));
    let square = || two(TIMES, cell(), cell());
    let opposite = || two(MINUS, number(0), square());
    let head = record(vec![square(), opposite(), opposite(), square()]);
    let question = comprehension(BAG, vec![generator(0, table(0))], head);
    [
        bag(1, vec![vec![i32::MIN]; 1023]).bytes(0),
        question.bytes(),
    ]
    .concat()
}
