//! Prints made inputs, one in a line: data, calendars and question in hexadecimal, separated by tabs; `-` for no byte.
//!
//! Arguments: seed (default 1), count of inputs (default 20,000).

use std::io::{self, BufWriter, Write};

use harness::arguments;
use harness::generate::generate;

fn main() -> io::Result<()> {
    let [seed, count] = arguments("seed, count of inputs", [1, 20_000]);
    let mut out = BufWriter::new(io::stdout().lock());
    for index in 0..count {
        let input = generate(seed, index);
        let parts =
            [&input.data, &input.calendars, &input.question].map(|bytes| hexadecimal(bytes));
        writeln!(out, "{}", parts.join("\t"))?;
    }
    out.flush()
}

fn hexadecimal(bytes: &[u8]) -> String {
    if bytes.is_empty() {
        return "-".to_string();
    }
    bytes.iter().map(|byte| format!("{byte:02x}")).collect()
}
