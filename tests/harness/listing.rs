//! Document 01's listing: "a bag table 0 of berths (1, 90), (2, 70), a bag table 1 of bollards
//! (1, 50), (1, 60), and the bag of records (b.0, sum of l.1 over l in table 1 where l.0 = b.0)
//! for b in table 0".

use super::nodes::*;

/// Data and question.
pub fn listing() -> (Vec<u8>, Vec<u8>) {
    let bag = |rows: [[i32; 2]; 2]| Stored::wide(BAG, 2, rows.map(Vec::from).to_vec());
    let (berth, bollard) = (0, 1);
    let same_berth = two(EQUAL, field(0, name(bollard)), field(0, name(berth)));
    let total = comprehension(
        SUM,
        vec![generator(bollard, table(1)), condition(same_berth)],
        field(1, name(bollard)),
    );
    let head = record(vec![field(0, name(berth)), total]);
    let question = comprehension(BAG, vec![generator(berth, table(0))], head);
    let tables = [bag([[1, 90], [2, 70]]), bag([[1, 50], [1, 60]])];
    (data_bytes(&tables), question.bytes())
}
