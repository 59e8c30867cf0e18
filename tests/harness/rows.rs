//! Both ways of answering, and the dues, over tables whose rows are rearranged, and repeated. Arguments:
//! seed, count of inputs whose rows can be rearranged.

use std::process::ExitCode;

use harness::arguments;
use harness::generate::generate;
use harness::row_order::{Common, RowOrder, REARRANGED, REPEATED};
use harness::tally::exit_code;

fn main() -> ExitCode {
    let [seed, count] = arguments("seed, count of inputs", [1, 200_000]);
    let mut rearranged = RowOrder::new("rearranged", REARRANGED, Common::Outcome);
    let mut repeated = RowOrder::new("repeated", REPEATED, Common::Words);
    let mut index = 0;
    while rearranged.tally.inputs < count {
        let input = generate(seed, index);
        rearranged.input((seed, index), &input);
        repeated.input((seed, index), &input);
        index += 1;
    }
    exit_code([&rearranged.tally, &repeated.tally])
}
