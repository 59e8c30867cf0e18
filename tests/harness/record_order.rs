//! "The same records in another order give the same answer" (document 02, E9).

use super::lent::SCRATCH;
use super::nodes::*;
use super::random::Random;
use super::tally::Place;

/// The records in another order; nothing where the data does not read or has no other order.
pub fn other_order(place: Place, data: &[u8]) -> Option<Vec<u8>> {
    let mut random = Random::new(!place.0, place.1);
    let question = comprehension(SUM, Vec::new(), number(7)).bytes();
    if evaluator::check(data, &[], &question, SCRATCH).ok()?.0 != 0 {
        return None;
    }
    let mut records = records_of(data);
    for last in (1..records.len()).rev() {
        records.swap(last, random.between(0, last));
    }
    if records.concat() == data {
        let half = records.len() / 2;
        records.rotate_left(half);
    }
    let rearranged = records.concat();
    (rearranged != data).then_some(rearranged)
}

/// The records of data that reads.
fn records_of(data: &[u8]) -> Vec<&[u8]> {
    let mut records = Vec::new();
    let mut rest = data;
    while let [low, high, ..] = rest {
        let length = usize::from(u16::from_le_bytes([*low, *high]));
        let (record, behind) = rest.split_at(NUMBER_AT + length);
        records.push(record);
        rest = behind;
    }
    records
}
