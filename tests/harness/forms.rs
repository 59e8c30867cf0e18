//! Forms that a question and its data can have: a run that never answered one of them has shown nothing
//! of it.

use std::collections::BTreeSet;

use super::by_column::tables_of;
use super::nodes::{
    Node, CHOICE, COMPREHENSION, CONDITION, FIELD, GENERATOR, MINUS, NAME, OPEN, PLUS, SUM, TABLE,
    TIMES,
};

/// A sum of a product of two cells (document 02, E5): refused with 28 where a cell has the bound 2^31.
const SUM_OF_PRODUCT: &str = "sum of a product of cells";

/// Tables that are not by row (document 02, E10).
const TABLES: [&str; 3] = [
    "table by column",
    "tables of both kinds",
    "difference that wraps, by column",
];

/// Choices (document 02, E2) by where they stand and what stands in them.
const CHOICES: [&str; 6] = [
    "choice",
    "choice as a condition",
    "choice in a choice",
    "comprehension in a choice's truth",
    "comprehension in a choice's first",
    "comprehension in a choice's second",
];

/// Open minutes (document 02, E4) by where they stand and what stands in them.
const OPEN_MINUTES: [&str; 3] = [
    "open minute",
    "open minute as a condition",
    "comprehension in an open minute",
];

/// All forms.
pub fn forms() -> impl Iterator<Item = &'static str> {
    forms_without_calendars().chain(OPEN_MINUTES)
}

/// The forms that are answered where no calendar is lent.
pub fn forms_without_calendars() -> impl Iterator<Item = &'static str> {
    let of_question = CHOICES.into_iter().chain([SUM_OF_PRODUCT]);
    of_question.chain(TABLES)
}

/// The forms in the bytes of an accepted question and of its data.
pub fn forms_of(data: &[u8], question: &[u8]) -> BTreeSet<&'static str> {
    let mut found = BTreeSet::new();
    add_tables(data, &mut found);
    if let Some(question) = Node::of_bytes(question) {
        add_choices(&question, &mut found);
        add_open_minutes(&question, &mut found);
        let mut rows = BTreeSet::new();
        add_rows(&question, &mut rows);
        found.extend(sums_product(&question, &rows).then_some(SUM_OF_PRODUCT));
    }
    found
}

fn add_tables(data: &[u8], found: &mut BTreeSet<&'static str>) {
    let [by_column, both, wraps] = TABLES;
    let tables = tables_of(data);
    let (columns, rows): (Vec<_>, Vec<_>) = tables.iter().partition(|table| table.by_column);
    found.extend((!columns.is_empty()).then_some(by_column));
    found.extend((!columns.is_empty() && !rows.is_empty()).then_some(both));
    found.extend(columns.iter().any(|table| table.wraps()).then_some(wraps));
}

/// The names, as bytes, of generators that range over a table: each stands for a row.
fn add_rows<'a>(node: &'a Node, rows: &mut BTreeSet<&'a [u8]>) {
    if node.kind == GENERATOR && node.parts.iter().all(|part| part.kind == TABLE) {
        rows.insert(&node.fixed);
    }
    for part in &node.parts {
        add_rows(part, rows);
    }
}

/// Whether a sum with a generator has a product of two cells as a summand of its head.
fn sums_product(node: &Node, rows: &BTreeSet<&[u8]>) -> bool {
    let counted = node.parts.iter().any(|part| part.kind == GENERATOR);
    let sum = node.kind == COMPREHENSION && node.fixed == [SUM] && counted;
    let mut head = node.parts.last().into_iter();
    sum && head.any(|head| adds_product(head, rows))
        || node.parts.iter().any(|part| sums_product(part, rows))
}

fn adds_product(term: &Node, rows: &BTreeSet<&[u8]>) -> bool {
    let is_cell = |term: &Node| {
        let row = |row: &Node| row.kind == NAME && rows.contains(&row.fixed[..]);
        term.kind == FIELD && term.parts.iter().all(row)
    };
    match term.kind {
        PLUS | MINUS => term.parts.iter().any(|part| adds_product(part, rows)),
        TIMES => term.parts.iter().all(is_cell),
        _ => false,
    }
}

fn add_choices(node: &Node, found: &mut BTreeSet<&'static str>) {
    let [choice, condition, nested, truth, first, second] = CHOICES;
    for (part, term) in node.parts.iter().zip([truth, first, second]) {
        match node.kind {
            CONDITION if part.kind == CHOICE => drop(found.insert(condition)),
            CHOICE => {
                found.insert(choice);
                found.extend(part.holds(CHOICE).then_some(nested));
                found.extend(part.holds(COMPREHENSION).then_some(term));
            }
            _ => {}
        }
    }
    for part in &node.parts {
        add_choices(part, found);
    }
}

fn add_open_minutes(node: &Node, found: &mut BTreeSet<&'static str>) {
    let [open, condition, inner] = OPEN_MINUTES;
    let holds_inner = || node.parts.iter().any(|part| part.holds(COMPREHENSION));
    let is_open = |part: &Node| part.kind == OPEN;
    if node.kind == OPEN {
        found.insert(open);
        found.extend(holds_inner().then_some(inner));
    }
    let is_condition = node.kind == CONDITION && node.parts.iter().any(is_open);
    found.extend(is_condition.then_some(condition));
    for part in &node.parts {
        add_open_minutes(part, found);
    }
}
