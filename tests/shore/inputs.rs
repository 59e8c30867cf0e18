//! Made inputs in a file, for programs that are not written in Rust: of each its data, its calendars and
//! its question, each with four bytes of length before it. Arguments: the file, seed, count of inputs.
//! Inputs that may be offered too many rows are left out; more than one in a hundred is a failure.

use std::error::Error;
use std::fs::File;
use std::io::{BufWriter, Write};

use harness::generate::generate;
use harness::offers::most_offers;
use harness::ways::MOST_OFFERS;

fn main() -> Result<(), Box<dyn Error>> {
    let mut words = std::env::args().skip(1);
    let mut word = || words.next().ok_or("arguments: file, seed, count of inputs");
    let mut file = BufWriter::new(File::create(word()?)?);
    let (seed, count): (u64, u64) = (word()?.parse()?, word()?.parse()?);
    let mut left_out = 0;
    for index in 0..count {
        let input = generate(seed, index);
        if most_offers(&input) > MOST_OFFERS {
            left_out += 1;
            continue;
        }
        for bytes in [&input.data, &input.calendars, &input.question] {
            file.write_all(&u32::try_from(bytes.len())?.to_le_bytes())?;
            file.write_all(bytes)?;
        }
    }
    file.flush()?;
    println!("inputs: {} of {count}", count - left_out);
    match left_out * 100 > count {
        true => Err("more than one input in 100 was left out".into()),
        false => Ok(()),
    }
}
