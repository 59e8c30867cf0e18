//! Adversarial chains: deep terms and types, generators over generators in many copies, counts
//! beyond any word, and rows that are built and then dropped.

use super::nodes::*;
use super::random::Random;
use super::typed::list_of_cells;

/// Records that a chain may take, so that a head and a little more still fit into 256.
const ROOM: usize = 240;

/// A question over one list of numbers.
pub fn random_chain(random: &mut Random) -> (Vec<Stored>, Node) {
    let choice = random.below(6);
    let stored = list_of_cells(random, if choice == 0 { 40 } else { 3 });
    let question = match choice {
        0 => built_and_dropped(random),
        1 => deep(random, number_around),
        2 => deep(random, truth_around),
        3 => deep(random, collection_around),
        4 => copied_generators(random),
        _ if random.chance(50) => nested_generators(random),
        _ => counted_and_dropped(random),
    };
    (vec![stored], question)
}

/// A term and the monoids that it may be the head of.
struct Around {
    term: Node,
    heads: &'static [u8],
}

/// A chain of bindings, each a little more around the last: normal forms and types as deep as
/// the records of a question allow. It starts at a cell, so that elements differ far inside.
fn deep(random: &mut Random, around: fn(&mut Random, Node) -> Around) -> Node {
    let most = random.one_of(&[3, 10, 40, ROOM], ROOM);
    let cell = field(0, name(0));
    let mut qualifiers = vec![generator(0, table(0)), binding(1, cell)];
    let mut last: u16 = 1;
    let mut heads: &[u8] = &[BAG];
    let mut records = 6;
    while records < most {
        let next = around(random, name(last));
        last = last.saturating_add(1);
        heads = next.heads;
        let next = binding(last, next.term);
        records += next.count();
        qualifiers.push(next);
    }
    comprehension(random.one_of(heads, BAG), qualifiers, name(last))
}

fn number_around(random: &mut Random, inner: Node) -> Around {
    let term = match random.below(8) {
        6 => choice(truth(random.chance(50)), inner, number(1)),
        7 => choice(truth(random.chance(50)), number(1), inner),
        0 => two(PLUS, inner, number(1)),
        1 => two(MINUS, number(1), inner),
        2 => two(TIMES, inner, number(-1)),
        3 => field(0, record(vec![inner])),
        _ => comprehension(random.one_of(&[SUM, MAX, MIN], SUM), Vec::new(), inner),
    };
    Around {
        term,
        heads: &[SUM, MAX, MIN, LIST, BAG, SET],
    }
}

/// The first link tests the cell; all later ones are about truths.
fn truth_around(random: &mut Random, inner: Node) -> Around {
    let term = match random.below(7) {
        _ if inner.fixed == [1, 0] => two(LESS, inner, number(1)),
        6 => choice(inner, truth(false), truth(true)),
        0 => two(AND, truth(true), inner),
        1 => two(OR, inner, truth(false)),
        2 => comprehension(SOME, vec![condition(inner)], truth(true)),
        3 => comprehension(random.one_of(&[SOME, ALL], ALL), Vec::new(), inner),
        _ => not(inner),
    };
    Around {
        term,
        heads: &[SOME, ALL, LIST, BAG, SET],
    }
}

fn collection_around(random: &mut Random, inner: Node) -> Around {
    let term = match random.below(6) {
        0 => record(vec![inner]),
        1 => record(vec![number(7), inner]),
        _ => {
            let collection = random.one_of(&[LIST, BAG, SET], BAG);
            comprehension(collection, Vec::new(), inner)
        }
    };
    Around {
        term,
        heads: &[LIST, BAG, SET],
    }
}

/// Lists over lists over a table or over nothing, summed, and the sum doubled: an environment for
/// each name and copy would be large.
fn copied_generators(random: &mut Random) -> Node {
    let first = if random.chance(50) {
        comprehension(LIST, vec![generator(200, table(0))], field(0, name(200)))
    } else {
        comprehension(LIST, Vec::new(), number(1))
    };
    let mut qualifiers = vec![binding(0, first)];
    let lists = random.between(1, 30) as u16;
    for next in 1..=lists {
        let own = next.saturating_add(100);
        let range = generator(own, name(next.saturating_sub(1)));
        qualifiers.push(binding(next, comprehension(LIST, vec![range], name(own))));
    }
    let mut last = lists.saturating_add(1);
    let range = generator(201, name(lists));
    qualifiers.push(binding(last, comprehension(SUM, vec![range], name(201))));
    for _ in 0..random.below(9) {
        let twice = two(random.one_of(&[PLUS, MINUS], PLUS), name(last), name(last));
        last = last.saturating_add(1);
        qualifiers.push(binding(last, twice));
    }
    let monoid = random.one_of(&[SUM, MAX, MIN, BAG], SUM);
    comprehension(monoid, qualifiers, name(last))
}

/// A generator over a comprehension whose generator is over a comprehension, and so on to the
/// last level, each with names of those around it.
fn nested_generators(random: &mut Random) -> Node {
    let depth = random.between(1, 13) as u16;
    let source = nested_below(random, depth, &mut Vec::new());
    let range = generator(200, source);
    comprehension(
        random.one_of(&[LIST, BAG, SET, SUM, MAX, MIN], BAG),
        vec![range],
        name(200),
    )
}

/// A list of numbers; the names of those around it stand for numbers.
fn nested_below(random: &mut Random, depth: u16, around: &mut Vec<u16>) -> Node {
    if depth == 0 {
        let range = generator(0, table(0));
        return comprehension(LIST, vec![range], field(0, name(0)));
    }
    let outside = around.len();
    let mut qualifiers = Vec::new();
    if random.chance(30) {
        let bound = depth.saturating_add(100);
        let other = random.one_of(around, bound);
        let term = if other == bound {
            number(1)
        } else {
            name(other)
        };
        qualifiers.push(binding(bound, term));
        around.push(bound);
    }
    let inner = nested_below(random, depth.saturating_sub(1), around);
    qualifiers.push(generator(depth, inner));
    let other = random.one_of(around, depth);
    if random.chance(20) {
        qualifiers.push(condition(not(two(LESS, name(other), name(depth)))));
    }
    around.truncate(outside);
    let head = match random.below(3) {
        0 => two(PLUS, name(depth), name(other)),
        _ => name(depth),
    };
    comprehension(LIST, qualifiers, head)
}

/// A chain whose end would have more nodes, leaves or generators than any word counts, and of
/// which one leaf is taken or nothing at all.
fn counted_and_dropped(random: &mut Random) -> Node {
    let width = random.one_of(&[2, 3, 8], 2);
    let kind = random.one_of(&[RECORD, PLUS, TIMES], RECORD);
    let width = if kind == RECORD { width } else { 2 };
    let links = random.between(1, ROOM.checked_div(width + 3).unwrap_or(1)) as u16;
    let mut qualifiers = vec![binding(0, number(3))];
    for next in 1..=links {
        let last = name(next.saturating_sub(1));
        let parts = vec![last; width];
        let term = Node {
            kind,
            fixed: Vec::new(),
            parts,
        };
        qualifiers.push(binding(next, term));
    }
    let head = match random.below(3) {
        // One leaf, by a field for each link: as many as the levels allow.
        0 if kind == RECORD && links <= 27 => (0..links).fold(name(links), |inner, _| {
            let index = random.below(width) as u8;
            field(index, inner)
        }),
        // An element that is ranged over and not looked at.
        1 => {
            let source = comprehension(LIST, Vec::new(), name(links));
            qualifiers.push(generator(200, source));
            number(5)
        }
        _ => number(4),
    };
    let monoid = random.one_of(&[SUM, MAX, MIN, LIST, SET], SUM);
    comprehension(monoid, qualifiers, head)
}

/// Records with a collection inside, over rows of which most or all are dropped by a condition
/// that holds a comprehension: G is far below what was built on the way.
fn built_and_dropped(random: &mut Random) -> Node {
    let cell = |own: u16| field(0, name(own));
    let collection = random.one_of(&[LIST, BAG, SET], BAG);
    let inner = comprehension(collection, vec![generator(1, table(0))], name(1));
    let total = comprehension(SUM, vec![generator(2, table(0))], cell(2));
    let met = match random.below(3) {
        0 => two(LESS, total, number(i32::MIN)),
        1 => two(EQUAL, total, cell(0)),
        _ => {
            let equal = condition(two(EQUAL, cell(2), two(PLUS, cell(0), number(9))));
            comprehension(SOME, vec![generator(2, table(0)), equal], truth(true))
        }
    };
    let head = record(vec![cell(0), inner]);
    let qualifiers = vec![generator(0, table(0)), condition(met)];
    comprehension(random.one_of(&[LIST, BAG, SET], BAG), qualifiers, head)
}
