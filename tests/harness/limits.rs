//! Questions at the limits: levels, records, bytes, nodes, bounds, rows.

use super::nodes::*;
use super::random::Random;
use super::typed::{declared, random_cell, Type};

/// A well-typed question of a wanted count of levels, near 32; with open minutes where a calendar is lent.
pub fn of_levels(random: &mut Random, lent: bool) -> Node {
    let levels = random.one_of(&[30, 31, 32, 32, 33, 33, 34], 32);
    let start = random.chance(50);
    let mut tower = Tower {
        top: if start { truth(true) } else { number(1) },
        of: if start { Type::Truth } else { Type::Number },
        levels: 1,
    };
    while tower.levels.saturating_add(1) < levels {
        let two_fit = tower.levels.saturating_add(2) < levels;
        tower.grow(random, two_fit, lent);
    }
    tower.wrap(random)
}

struct Tower {
    top: Node,
    of: Type,
    levels: usize,
}

impl Tower {
    /// Puts one or two levels on top.
    fn grow(&mut self, random: &mut Random, two_fit: bool, lent: bool) {
        let top = self.top.clone();
        let (grown, levels) = match random.below(5) {
            0 if two_fit => (field(0, record(vec![top])), 2),
            1 if two_fit && self.of == Type::Truth => {
                let monoid = random.one_of(&[SOME, ALL], SOME);
                (comprehension(monoid, vec![condition(top)], truth(true)), 2)
            }
            2 => (self.wrap_scalar(random), 1),
            3 => (self.wrap_choice(random), 1),
            _ if self.of == Type::Truth => match random.below(3) {
                0 => (not(top), 1),
                1 => (two(AND, truth(true), top), 1),
                _ => (two(OR, top, truth(false)), 1),
            },
            _ => match random.below(4) {
                0 => (two(PLUS, top, number(1)), 1),
                1 => (two(MINUS, number(1), top), 1),
                2 if lent => {
                    self.of = Type::Truth;
                    (open(0, top), 1)
                }
                _ => {
                    self.of = Type::Truth;
                    (two(LESS, top, number(0)), 1)
                }
            },
        };
        self.top = grown;
        self.levels = self.levels.saturating_add(levels);
    }

    /// A comprehension of the same type over the top.
    fn wrap_scalar(&mut self, random: &mut Random) -> Node {
        let monoids: &[u8] = match self.of {
            Type::Truth => &[SOME, ALL],
            _ => &[SUM, MAX, MIN],
        };
        comprehension(random.one_of(monoids, SOME), Vec::new(), self.top.clone())
    }

    /// A choice of the same type with the top among its terms.
    fn wrap_choice(&mut self, random: &mut Random) -> Node {
        let truths = self.of == Type::Truth;
        let other = if truths { truth(false) } else { number(1) };
        let decides = truth(random.chance(50));
        match random.below(3) {
            0 => choice(decides, self.top.clone(), other),
            1 if truths => choice(self.top.clone(), decides, other),
            _ => choice(decides, other, self.top.clone()),
        }
    }

    fn wrap(&mut self, random: &mut Random) -> Node {
        if random.chance(40) {
            let monoid = random.one_of(&[LIST, BAG, SET], BAG);
            return comprehension(monoid, Vec::new(), self.top.clone());
        }
        self.wrap_scalar(random)
    }
}

/// A well-typed question of a wanted count of records, near 256.
pub fn of_records(random: &mut Random) -> Node {
    let records: usize = random.one_of(&[254, 255, 256, 256, 257, 257, 258], 256);
    let mut qualifiers = Vec::new();
    let mut left = records.saturating_sub(1);
    let mut next: u16 = 0;
    while left > 2 {
        let qualifier = match random.below(4) {
            0 if left > 5 => condition(choice(truth(true), truth(true), truth(false))),
            0 | 1 => condition(truth(true)),
            _ => {
                next = next.saturating_add(1);
                binding(next, number(1))
            }
        };
        left = left.saturating_sub(qualifier.count());
        qualifiers.push(qualifier);
    }
    let head = if left == 2 {
        not(truth(false))
    } else {
        truth(true)
    };
    comprehension(random.one_of(&[SET, SOME, ALL, BAG], ALL), qualifiers, head)
}

/// Bytes of a wanted count, near 4,096. So many are never a question: 256 records of at most 8
/// bytes are fewer.
pub fn of_bytes(random: &mut Random) -> Vec<u8> {
    let length = random.one_of(&[4095, 4096, 4096, 4097, 4097, 4098], 4096);
    let mut content = vec![ALL];
    let filling = match random.below(3) {
        0 => condition(truth(true)).bytes(),
        1 => binding(0, number(1)).bytes(),
        _ => vec![random.byte()],
    };
    while content.len().saturating_add(4) < length {
        content.extend(&filling);
    }
    content.truncate(length.saturating_sub(4));
    if random.chance(50) {
        let mut bytes = comprehension(ALL, Vec::new(), truth(true)).bytes();
        bytes.extend(content);
        bytes.truncate(length);
        return bytes;
    }
    record_bytes(COMPREHENSION, &content)
}

/// Sums of doubled names whose normal form has a wanted count of nodes, near 512; as an open minute, where a
/// calendar is lent.
pub fn of_nodes(random: &mut Random, lent: bool) -> Node {
    let wanted = random.one_of(&[508, 510, 511, 512, 512, 513, 513, 514, 520], 512);
    let operation = random.one_of(&[PLUS, MINUS], PLUS);
    let mut qualifiers = vec![binding(0, number(1))];
    for next in 1..9u16 {
        let last = next.saturating_sub(1);
        qualifiers.push(binding(next, two(operation, name(last), name(last))));
    }
    let left = usize::saturating_sub(wanted, 1);
    let head = match random.below(5) {
        // An open minute is one node, its choice and the two numbers are three more.
        4 if lent => choice(open(0, sum_of_nodes(left - 4)), number(1), number(0)),
        // A choice is one node, its truth and the 1 are two more.
        0 => choice(truth(true), number(1), sum_of_nodes(left - 3)),
        1 => choice(truth(true), sum_of_nodes(left - 3), number(1)),
        _ => sum_of_nodes(left),
    };
    let monoid = random.one_of(&[SUM, MAX, MIN, BAG], SUM);
    comprehension(monoid, qualifiers, head)
}

/// A sum of the doubled names with so many nodes: name n has 2^(n+1) - 1, and each summand but
/// the first brings a plus.
fn sum_of_nodes(nodes: usize) -> Node {
    let mut left = nodes;
    let mut sum: Option<Node> = None;
    for (next, own) in [511, 255, 127, 63, 31, 15, 7, 3, 1].into_iter().enumerate() {
        let summand = name(u16::try_from(8usize.saturating_sub(next)).unwrap_or(0));
        while let Some(rest) = left.checked_sub(own + usize::from(sum.is_some())) {
            left = rest;
            sum = Some(match sum.take() {
                Some(sum) => two(PLUS, sum, summand.clone()),
                None => summand.clone(),
            });
        }
    }
    let sum = sum.unwrap_or_else(|| number(1));
    match left {
        0 => sum,
        // One node more: a sum of it without qualifiers.
        _ => comprehension(SUM, Vec::new(), sum),
    }
}

/// Numbers whose bound is near 2^62, in a head or under a condition.
pub fn of_bounds(random: &mut Random) -> (Vec<Stored>, Node) {
    let collection = random.one_of(&[LIST, BAG, BAG], BAG);
    let rows = (0..random.below(3))
        .map(|_| vec![random_cell(random)])
        .collect();
    let tables = vec![Stored::wide(collection, 1, rows)];
    let mut total = wide_number(random);
    if random.chance(35) {
        total = chosen(random, total);
    }
    (tables, around_number(random, total))
}

/// The number beside a small one, taken or not: its bound is the larger one. Or it decides between
/// two small ones.
fn chosen(random: &mut Random, total: Node) -> Node {
    let decides = truth(random.chance(50));
    match random.below(3) {
        0 => choice(decides, total, number(1)),
        1 => choice(decides, number(1), total),
        _ => choice(two(LESS, total, number(1)), number(2), number(-2)),
    }
}

/// A sum, max or min over 0 to 3 generators, which count in the bound of a sum alone: cell or 1, times
/// a power of two, perhaps plus or minus 1.
fn wide_number(random: &mut Random) -> Node {
    let monoid = random.one_of(&[SUM, SUM, MAX, MIN], SUM);
    let generators = random.one_of(&[0, 1, 2, 3], 0);
    let counted = if monoid == SUM { generators } else { 0 };
    let cell = generators > 0 && random.chance(60);
    let wanted = random.one_of(&[61, 62, 62, 62, 63], 62);
    let reached = usize::from(counted) * 10 + if cell { 31 } else { 0 };
    let exponent = usize::saturating_sub(wanted, reached);
    let mut head = if cell { field(0, name(0)) } else { number(1) };
    if exponent > 0 || random.chance(30) {
        head = two(TIMES, head, power_of_two(random, exponent));
    }
    if random.chance(50) {
        head = two(
            random.one_of(&[PLUS, MINUS], PLUS),
            head,
            number(random.one_of(&[1, -1], 1)),
        );
    }
    let qualifiers = (0..generators)
        .map(|next| generator(next, table(0)))
        .collect();
    comprehension(monoid, qualifiers, head)
}

/// A term with bound 2^exponent.
pub fn power_of_two(random: &mut Random, exponent: usize) -> Node {
    let small = |exponent: usize| match exponent {
        31 => number(i32::MIN),
        _ => number(
            1i32.checked_shl(u32::try_from(exponent).unwrap_or(0))
                .unwrap_or(1),
        ),
    };
    if exponent <= 31 && random.chance(70) {
        return small(exponent);
    }
    let first = exponent
        .min(random.between(0, 31))
        .max(exponent.saturating_sub(31))
        .min(31);
    let rest = exponent.saturating_sub(first);
    if rest > 31 {
        return two(
            TIMES,
            small(first),
            two(TIMES, small(31), small(rest.saturating_sub(31))),
        );
    }
    two(TIMES, small(first), small(rest))
}

/// The number itself, with a little added, or twice.
fn around_number(random: &mut Random, total: Node) -> Node {
    let little = number(random.one_of(&[-1, 0, 0, 1], 0));
    match random.below(4) {
        0 => question_about(random, Vec::new(), total),
        1 => question_about(random, Vec::new(), two(PLUS, total, little)),
        2 => question_about(random, Vec::new(), two(MINUS, little, total)),
        _ => {
            let twice = two(PLUS, name(200), name(200));
            question_about(random, vec![binding(200, total)], twice)
        }
    }
}

/// A question that holds the number in a head, under a factor 0, or in a condition.
pub fn question_about(random: &mut Random, qualifiers: Vec<Node>, total: Node) -> Node {
    let mut qualifiers = qualifiers;
    match random.below(6) {
        0 => comprehension(SUM, qualifiers, total),
        1 => comprehension(MAX, qualifiers, total),
        2 => comprehension(MIN, qualifiers, total),
        3 => comprehension(BAG, qualifiers, record(vec![total, truth(true)])),
        4 => comprehension(LIST, qualifiers, two(TIMES, number(0), total)),
        _ => {
            qualifiers.push(condition(two(LESS, total, number(1))));
            comprehension(SOME, qualifiers, truth(true))
        }
    }
}

/// A table of many rows, up to 1,024 and one more, and a small question over it.
pub fn of_rows(random: &mut Random) -> (Vec<Stored>, Node) {
    let columns = random.one_of(&[1, 2, 8], 1);
    let count = random.one_of(&[100, 1000, 1023, 1024, 1024, 1025], 1024);
    let row = |random: &mut Random| (0..columns).map(|_| random_cell(random)).collect();
    let rows = (0..count).map(|_| row(random)).collect();
    let collection = random.one_of(&[LIST, BAG, SET], BAG);
    let stored = declared(random, Stored::wide(collection, columns, rows));
    let range = generator(3, table(0));
    let question = match random.below(4) {
        0 => comprehension(SET, vec![range], name(3)),
        1 => {
            let monoid = random.one_of(&[MAX, MIN], MAX);
            comprehension(monoid, vec![range], field(0, name(3)))
        }
        2 => {
            let met = condition(two(EQUAL, field(0, name(3)), number(1)));
            comprehension(SOME, vec![range, met], truth(true))
        }
        _ => comprehension(stored.collection, vec![range], field(0, name(3))),
    };
    (vec![stored], question)
}
