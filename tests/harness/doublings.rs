//! Adversarial doublings: chains of bindings, each mentioning the last twice.

use super::nodes::*;
use super::random::Random;
use super::typed::list_of_cells;

/// A chain of doublings and a question about its end, over a small list. Most chains are short,
/// so that an evaluator can follow them; a few are nearly as long as the limits allow.
pub fn random_doubling(random: &mut Random) -> (Vec<Stored>, Node) {
    let stored = list_of_cells(random, 3);
    let long = random.chance(6);
    let question = match random.below(9) {
        0 => numbers(random),
        1 => truths(random),
        2 => records(random),
        3 => splices(random, long),
        4 => dropped(random),
        5 => somes(random, long),
        6 => nested_sums(random),
        7 => pairs(random),
        _ => tables(random),
    };
    (vec![stored], question)
}

fn steps(random: &mut Random, long: bool, usual: usize, most: usize) -> u16 {
    let count = if long {
        random.between(usual, most)
    } else {
        random.between(1, usual)
    };
    u16::try_from(count).unwrap_or(1)
}

/// Names 0 to `count`, each made from the one before.
fn chain(first: Node, count: u16, next: impl Fn(Node, Node) -> Node) -> Vec<Node> {
    let mut bindings = vec![binding(0, first)];
    for number in 1..=count {
        let last = number.saturating_sub(1);
        bindings.push(binding(number, next(name(last), name(last))));
    }
    bindings
}

/// Plus, minus, times or a choice of the last with itself: 27 or 28 where the chain is long.
fn numbers(random: &mut Random) -> Node {
    let kind = random.one_of(&[PLUS, PLUS, MINUS, TIMES, CHOICE], PLUS);
    let first = number(random.one_of(&[0, 1, -1, 2, 256], 1));
    let count = steps(random, false, 10, 10);
    let bindings = chain(first, count, |left, right| doubled(kind, left, right));
    let end = name(u16::try_from(random.below(usize::from(count) + 1)).unwrap_or(0));
    let monoid = random.one_of(&[SUM, MAX, MIN, LIST, SET], SUM);
    comprehension(monoid, bindings, end)
}

/// A number of two, by an operation or by a choice.
fn doubled(kind: u16, left: Node, right: Node) -> Node {
    match kind {
        CHOICE => choice(two(LESS, number(0), number(1)), left, right),
        _ => two(kind, left, right),
    }
}

/// "and" conditions that become many, and choices of truths, which stay.
fn truths(random: &mut Random) -> Node {
    let kind = random.one_of(&[AND, AND, OR, CHOICE], AND);
    let count = steps(random, false, 9, 9);
    let first = two(LESS, number(0), number(random.one_of(&[0, 1], 1)));
    let mut qualifiers = chain(first, count, |left, right| match kind {
        CHOICE => choice(left.clone(), right, left),
        _ => two(kind, left, right),
    });
    qualifiers.push(condition(name(count)));
    comprehension(
        random.one_of(&[ALL, SOME, BAG], BAG),
        qualifiers,
        truth(true),
    )
}

/// Records of many leaves, of which one field is followed to a leaf.
fn records(random: &mut Random) -> Node {
    let count = steps(random, true, 1, 36);
    let mut qualifiers = chain(number(7), count, |left, right| record(vec![left, right]));
    let mut last = count;
    for _ in 0..count {
        let next = last.saturating_add(1);
        let index = random.one_of(&[0, 1], 0);
        qualifiers.push(binding(next, field(index, name(last))));
        last = next;
    }
    let monoid = random.one_of(&[SUM, MAX, MIN, BAG], SUM);
    comprehension(monoid, qualifiers, name(last))
}

/// Generators over the last, twice, that multiply; over a table or over nothing at all.
fn splices(random: &mut Random, long: bool) -> Node {
    let leaves_rows = random.chance(50);
    let count = if leaves_rows {
        steps(random, long, 3, 9)
    } else {
        steps(random, long, 6, 27)
    };
    let first = if leaves_rows {
        comprehension(LIST, vec![generator(200, table(0))], field(0, name(200)))
    } else {
        comprehension(LIST, Vec::new(), number(1))
    };
    let mut qualifiers = vec![binding(0, first)];
    for step in 1..=count {
        let last = step.saturating_sub(1);
        let (left, right) = (step.saturating_mul(2) + 50, step.saturating_mul(2) + 51);
        let head = if random.chance(50) {
            name(left)
        } else {
            name(right)
        };
        let inner = vec![generator(left, name(last)), generator(right, name(last))];
        qualifiers.push(binding(step, comprehension(LIST, inner, head)));
    }
    qualifiers.push(generator(150, name(count)));
    let monoid = random.one_of(&[SUM, LIST, MAX, MIN], SUM);
    comprehension(monoid, qualifiers, name(150))
}

/// A large term that stands in a field which is not taken, or is not used at all.
fn dropped(random: &mut Random) -> Node {
    let kind = random.one_of(&[PLUS, TIMES, CHOICE], PLUS);
    let count = u16::try_from(random.between(3, 40)).unwrap_or(3);
    let mut qualifiers = chain(number(3), count, |left, right| doubled(kind, left, right));
    let head = if random.chance(50) {
        field(1, record(vec![name(count), number(5)]))
    } else {
        qualifiers.push(binding(100, record(vec![name(count), name(0)])));
        field(1, name(100))
    };
    comprehension(random.one_of(&[SUM, LIST], SUM), qualifiers, head)
}

/// "some" conditions in one another, each twice; in a choice they do not give way.
fn somes(random: &mut Random, long: bool) -> Node {
    let count = steps(random, long, 4, 20);
    let first = comprehension(SOME, vec![generator(200, table(0))], truth(true));
    let chosen = random.chance(25);
    let inner = |left: Node, right: Node| {
        let qualifiers = if chosen {
            vec![condition(choice(truth(true), left, right))]
        } else {
            vec![condition(left), condition(right)]
        };
        comprehension(SOME, qualifiers, truth(true))
    };
    let mut qualifiers = chain(first, count, inner);
    qualifiers.push(condition(name(count)));
    comprehension(
        random.one_of(&[SET, MAX, MIN, LIST, BAG], SET),
        qualifiers,
        number(4),
    )
}

/// Sums without generators over sums without generators.
fn nested_sums(random: &mut Random) -> Node {
    let count = steps(random, false, 8, 8);
    let first = comprehension(SUM, Vec::new(), number(1));
    let inner = |left, right| comprehension(SUM, Vec::new(), two(PLUS, left, right));
    comprehension(SUM, chain(first, count, inner), name(count))
}

/// A bound comprehension ranged over twice, its rows kept in pairs: copies must not capture.
fn pairs(random: &mut Random) -> Node {
    let row = record(vec![name(10), name(11)]);
    let inner = vec![generator(10, table(0)), generator(11, table(0))];
    let monoid = random.one_of(&[LIST, BAG], BAG);
    let bound = binding(0, comprehension(monoid, inner, row));
    let left = field(0, field(random.one_of(&[0, 1], 0), name(1)));
    let right = field(0, field(random.one_of(&[0, 1], 1), name(2)));
    let met = condition(two(
        random.one_of(&[EQUAL, LESS], EQUAL),
        left.clone(),
        right.clone(),
    ));
    let qualifiers = vec![bound, generator(1, name(0)), generator(2, name(0)), met];
    comprehension(
        random.one_of(&[BAG, SET], BAG),
        qualifiers,
        record(vec![left, right]),
    )
}

/// Tables as values, doubled in records.
fn tables(random: &mut Random) -> Node {
    let count = steps(random, false, 6, 6);
    let bindings = chain(table(0), count, |left, right| record(vec![left, right]));
    comprehension(random.one_of(&[BAG, LIST, SET], BAG), bindings, name(count))
}
