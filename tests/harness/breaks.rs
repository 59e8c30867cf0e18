//! Ways to break what was well formed: trees, bytes and data.

use super::by_column::{of_either_kind, MOST_ROWS};
use super::columns::table_beyond;
use super::nodes::*;
use super::numbers::{broken_number, free_number, Numbers};
use super::random::Random;
use super::typed::random_tables;

/// Changes one record of a question so that its bytes stay in order; its names, types or
/// generators may not.
pub fn break_meaning(random: &mut Random, question: &mut Node) {
    let position = random.below(question.count());
    let copied = random.below(question.count());
    let copy = question.at(copied).map(|node| node.clone());
    let Some(node) = question.at(position) else {
        return;
    };
    match random.weighted(&[30, 30, 15, 15, 10]) {
        0 => change_own_bytes(random, node),
        1 => change_kind(random, node),
        2 => replace_term(random, node),
        3 => random_swap(random, node),
        // A copy of another part of the question: names are bound twice or leave their scope.
        _ => match copy {
            Some(copy) if is_term(node.kind) && is_term(copy.kind) => *node = copy,
            _ => change_own_bytes(random, node),
        },
    }
}

fn is_term(kind: u16) -> bool {
    !matches!(kind, GENERATOR | BINDING | CONDITION)
}

/// Another name, index, table number, calendar, monoid, truth or number.
fn change_own_bytes(random: &mut Random, node: &mut Node) {
    let change = random.one_of(&[1, 2, 3, 255], 1);
    let Some(byte) = node.fixed.first_mut() else {
        return replace_term(random, node);
    };
    *byte = match node.kind {
        COMPREHENSION => random.one_of(&[LIST, BAG, SET, SUM, MAX, SOME, ALL, MIN], LIST),
        TRUTH => *byte ^ 1,
        _ => byte.wrapping_add(change),
    };
}

/// Another kind of the same form.
fn change_kind(random: &mut Random, node: &mut Node) {
    node.kind = match node.kind {
        PLUS..=OR => random.one_of(&[PLUS, MINUS, TIMES, EQUAL, LESS, AND, OR], PLUS),
        GENERATOR => BINDING,
        BINDING => GENERATOR,
        NOT | CHOICE => RECORD,
        OPEN => FIELD,
        FIELD if random.chance(50) => OPEN,
        RECORD if node.parts.len() == 3 => CHOICE,
        _ => return replace_term(random, node),
    };
}

fn replace_term(random: &mut Random, node: &mut Node) {
    if !is_term(node.kind) || node.kind == COMPREHENSION {
        return random_swap(random, node);
    }
    *node = match random.below(8) {
        0 => number(1),
        1 => truth(true),
        2 => name(u16::from(random.byte())),
        3 => table(random.one_of(&[0, 1, 2, 7, 8, 255], 0)),
        4 => record(vec![number(1), truth(false)]),
        5 => misfit_choice(random),
        6 => {
            let minute = random.one_of(&[0, 0, 480], 0);
            let minute = if random.chance(70) {
                number(minute)
            } else {
                truth(true)
            };
            open(random.one_of(&[0, 0, 0, 1, 3, 4, 255], 0), minute)
        }
        _ => comprehension(BAG, Vec::new(), number(1)),
    };
}

/// A choice whose three terms fit by chance only.
fn misfit_choice(random: &mut Random) -> Node {
    let mut part = || match random.below(6) {
        0 | 1 => truth(true),
        2 | 3 => number(1),
        4 => record(vec![number(1)]),
        _ => table(0),
    };
    choice(part(), part(), part())
}

/// Two parts change places.
fn random_swap(random: &mut Random, node: &mut Node) {
    let last = node.parts.len();
    let (left, right) = (random.below(last), random.below(last));
    // The head of a comprehension stays the last part.
    let head = node.kind == COMPREHENSION && left.max(right).saturating_add(1) == last;
    if left < last && right < last && !head {
        node.parts.swap(left, right);
    }
}

/// Changes one record so that it breaks the byte rules, its length fitting its content.
pub fn break_record(random: &mut Random, question: &mut Node) {
    if random.chance(15) {
        return break_monoid(random, question);
    }
    if random.chance(15) {
        return break_choice(random, question);
    }
    let position = random.below(question.count());
    let extra = random.byte();
    let Some(node) = question.at(position) else {
        return;
    };
    match random.below(7) {
        0 => {
            let kinds = [0, 16, 17, 18, 19, 20, 21, 22, 23, 24, 256, 270, 277, 65_535];
            node.kind = random.one_of(&kinds, 0);
        }
        1 => node.fixed.push(extra),
        2 => drop(node.fixed.pop()),
        3 => drop(node.parts.pop()),
        4 => {
            let again = node.parts.last().cloned().unwrap_or_else(|| truth(true));
            let most = random.between(1, 9);
            node.parts.extend(std::iter::repeat_n(again, most));
        }
        5 => {
            if let Some(byte) = node.fixed.last_mut() {
                *byte = random.one_of(&[0, 1, 2, 3, 8, 9, 255], 8);
            }
        }
        _ => {
            if let Some(byte) = node.fixed.first_mut() {
                *byte = random.one_of(&[0, 2, 8, 9, 100, 255], 8);
            }
        }
    }
}

/// A byte just beside the monoids', in one of the comprehensions: the question itself is one.
fn break_monoid(random: &mut Random, question: &mut Node) {
    let mut position = random.below(question.count());
    while position > 0 && !question.at(position).is_some_and(is_comprehension) {
        position -= 1;
    }
    if let Some(node) = question.at(position) {
        node.fixed = vec![random.one_of(&[0, 9], 9)];
    }
}

fn is_comprehension(node: &mut Node) -> bool {
    node.kind == COMPREHENSION
}

/// A term becomes a choice of any count of terms but three.
fn break_choice(random: &mut Random, question: &mut Node) {
    let position = random.between(1, question.count().saturating_sub(1));
    let Some(node) = question.at(position).filter(|node| is_term(node.kind)) else {
        return break_monoid(random, question);
    };
    let count = random.one_of(&[0, 1, 2, 2, 2, 4, 4, 4, 5], 2);
    let mut parts = vec![node.clone(); count];
    if let Some(first) = parts.first_mut() {
        *first = truth(random.chance(50));
    }
    *node = Node {
        kind: CHOICE,
        fixed: Vec::new(),
        parts,
    };
}

/// Changes bytes without regard for records.
pub fn break_bytes(random: &mut Random, bytes: &mut Vec<u8>) {
    let position = random.below(bytes.len());
    match random.weighted(&[25, 15, 15, 15, 20, 10]) {
        0 => {
            let bit = 1u8.rotate_left(u32::from(random.byte() % 8));
            if let Some(byte) = bytes.get_mut(position) {
                *byte ^= bit;
            }
        }
        1 => bytes.insert(position.min(bytes.len()), random.byte()),
        2 => {
            if position < bytes.len() {
                bytes.remove(position);
            }
        }
        3 => bytes.truncate(position),
        4 => break_length(random, bytes),
        _ => {
            for _ in 0..random.between(1, 5) {
                bytes.push(random.byte());
            }
        }
    }
}

/// One record's length is off by one.
fn break_length(random: &mut Random, bytes: &mut [u8]) {
    let starts = record_starts(bytes);
    let Some(start) = random.pick(&starts).copied() else {
        return;
    };
    let up = random.chance(50);
    if let Some(byte) = bytes.get_mut(start) {
        *byte = if up {
            byte.wrapping_add(1)
        } else {
            byte.wrapping_sub(1)
        };
    }
}

/// Where the records of a well-formed question start.
fn record_starts(bytes: &[u8]) -> Vec<usize> {
    let mut starts = Vec::new();
    let mut at: usize = 0;
    while let Some([low, high, kind, _]) = bytes.get(at..at.saturating_add(4)) {
        starts.push(at);
        let length = usize::from(u16::from_le_bytes([*low, *high]));
        // Records with parts are entered behind their own bytes, others are passed over.
        let own = own_bytes(u16::from(*kind), length);
        at = at.saturating_add(4).saturating_add(own);
    }
    starts
}

/// Data that is refused with 11, 12 or 13, the other tables being whole.
pub fn broken_data(random: &mut Random, numbers: Numbers, tables: &[Stored]) -> Vec<u8> {
    let mut records = numbers.records(tables);
    for _ in 0..random.one_of(&[1, 1, 2], 1) {
        let table = some_table(random, tables);
        break_records(random, &mut records, &table);
    }
    records.concat()
}

/// Data with a table that does not keep its bounds; sometimes a record before or behind it, or made from
/// it, is broken, too: the order of 43 and the others.
pub fn beyond_bounds(random: &mut Random, numbers: Numbers, tables: &[Stored]) -> Vec<u8> {
    let mut records = numbers.records(tables);
    let beyond = table_beyond(random);
    let number = free_number(random, &records);
    let position = random.below(records.len().saturating_add(1));
    records.insert(position, beyond.bytes(number));
    if random.chance(35) {
        break_records(random, &mut records, &beyond);
    }
    records.concat()
}

/// Data with a table whose number is above 7 or used; sometimes it does not keep its bounds, or a record
/// before or behind it, or made from it, is broken, too: the order of 50, 51 and the others.
pub fn broken_numbers(random: &mut Random, numbers: Numbers, tables: &[Stored]) -> Vec<u8> {
    let mut records = numbers.records(tables);
    // A ninth record is 13 whatever its number.
    if random.chance(90) {
        records.truncate(NUMBERED - 1);
    }
    let table = match random.below(4) {
        0 => table_beyond(random),
        _ => some_table(random, tables),
    };
    let number = broken_number(random, &records);
    let position = random.below(records.len().saturating_add(1));
    records.insert(position, table.bytes(number));
    if random.chance(35) {
        break_records(random, &mut records, &table);
    }
    records.concat()
}

/// One record for the two directions, in most cases whole: else broken, beyond its bounds, with a number
/// above 7 or bytes behind it, or nothing at all.
pub fn lone_record(random: &mut Random) -> Vec<u8> {
    let tables = random_tables(random);
    let tables = of_either_kind(random, tables);
    let table = match random.below(10) {
        0 => table_beyond(random),
        1..=3 => of_any_cells(random),
        _ => some_table(random, &tables),
    };
    let mut records = Vec::new();
    match random.below(10) {
        0 => break_record_of_data(random, &mut records, 0, &table),
        1 => break_table(random, &mut records, 0, &table),
        _ => records.push(table.bytes(random.one_of(&[0, 1, 2, 3, 4, 5, 6, 7, 7, 8, 255], 0))),
    }
    match random.below(30) {
        0 => records.push(vec![random.byte(); random.between(1, 5)]),
        1 => records.push(table.bytes(1)),
        2 => records.clear(),
        _ => {}
    }
    records.concat()
}

/// A table of either kind and of any shape, whose cells are any at all.
fn of_any_cells(random: &mut Random) -> Stored {
    let columns = random.between(1, 8);
    let count = random.one_of(&[0, 1, 2, 2, 3, 3, 5, 8, 20, 100, MOST_ROWS], 2);
    let mut row = |_| (0..columns).map(|_| random.next() as i32).collect();
    let rows = (0..count).map(&mut row).collect();
    Stored {
        by_column: random.chance(50),
        ..Stored::wide(random.one_of(&[LIST, BAG, SET], BAG), columns, rows)
    }
}

fn some_table(random: &mut Random, tables: &[Stored]) -> Stored {
    let table = random.pick(tables).cloned();
    table.unwrap_or_else(|| Stored::wide(BAG, 1, Vec::new()))
}

/// A number for a record that is broken otherwise: any of these is found later.
fn any_number(random: &mut Random, records: &[Vec<u8>]) -> u8 {
    match random.below(3) {
        0 => broken_number(random, records),
        _ => free_number(random, records),
    }
}

/// Puts a broken record, made from the table, among the others.
fn break_records(random: &mut Random, records: &mut Vec<Vec<u8>>, table: &Stored) {
    let position = random.below(records.len().saturating_add(1));
    match random.below(3) {
        0 => break_record_of_data(random, records, position, table),
        1 => break_table(random, records, position, table),
        _ => add_records(random, records, table),
    }
}

/// "11: a record cut short or not kind 20", nor 23.
fn break_record_of_data(
    random: &mut Random,
    records: &mut Vec<Vec<u8>>,
    position: usize,
    table: &Stored,
) {
    let number = any_number(random, records);
    let mut bytes = table.bytes(number);
    match random.below(4) {
        0 => {
            let kind = random.one_of(&[0, 14, 19, 21, 22, 24, 276, 279], 21);
            bytes = record_bytes(kind, &table.content(number));
        }
        1 => bytes.truncate(random.between(1, 3)),
        2 => bytes.truncate(bytes.len().saturating_sub(random.between(1, 4))),
        _ => {
            if let Some(byte) = bytes.first_mut() {
                *byte = byte.wrapping_add(random.one_of(&[1, 4, 8], 4));
            }
        }
    }
    records.insert(position.min(records.len()), bytes);
}

/// "12: collection, columns or rows outside their ranges, or a length that does not match."
fn break_table(random: &mut Random, records: &mut Vec<Vec<u8>>, position: usize, table: &Stored) {
    let mut broken = table.clone();
    let number = any_number(random, records);
    let mut content = match random.below(8) {
        0 => {
            broken.collection = random.one_of(&[0, 4, 7, 255], 0);
            broken.content(number)
        }
        1 => {
            let columns = random.one_of(&[0, 9, 255], 9);
            let rows = vec![vec![1; columns]; random.below(3)];
            Stored::wide(broken.collection, columns, rows).content(number)
        }
        2 => {
            let rows = vec![vec![1]; random.one_of(&[1025, 1026, 2000], 1025)];
            Stored::wide(broken.collection, 1, rows).content(number)
        }
        3 => {
            let mut content = broken.content(number);
            content.truncate(random.below(BOUNDS_AT - NUMBER_AT));
            content
        }
        4 => content_without_bounds(random, &broken, number),
        // Without a number, as before E9.
        5 => broken.content(number).split_off(1),
        _ => broken.content(number),
    };
    if random.chance(40) {
        content.extend(vec![0; random.between(1, 4)]);
    }
    let record = record_bytes(table.kind(), &content);
    records.insert(position.min(records.len()), record);
}

/// All bounds are left out, as in document 01's form, or the last, or the first stands twice.
fn content_without_bounds(random: &mut Random, table: &Stored, number: u8) -> Vec<u8> {
    let (mut content, start) = (table.content(number), BOUNDS_AT - NUMBER_AT);
    let end = start + 4 * table.bounds.len();
    match random.below(3) {
        0 => drop(content.drain(start..end)),
        1 => drop(content.drain(end - 4..end)),
        _ => {
            let first = content[start..start + 4].to_vec();
            drop(content.splice(start..start, first));
        }
    }
    content
}

/// "13: a ninth record", whole or not, whatever its number: all are used.
fn add_records(random: &mut Random, records: &mut Vec<Vec<u8>>, table: &Stored) {
    while records.len() < NUMBERED {
        let number = free_number(random, records);
        records.push(table.bytes(number));
    }
    if random.chance(85) {
        let number = broken_number(random, records);
        let mut ninth = table.bytes(number);
        if random.chance(50) {
            ninth.truncate(random.between(1, 6));
        }
        records.push(ninth);
    }
}
