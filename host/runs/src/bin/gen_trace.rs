//! gen_trace SEED LINES: a random trace on standard output.

use std::io::{self, Write};

use runs::trace_lines::TraceLines;

fn main() -> io::Result<()> {
    let numbers: Vec<u64> = std::env::args()
        .skip(1)
        .filter_map(|text| text.parse().ok())
        .collect();
    let (seed, count) = match numbers[..] {
        [seed, count] => (seed, count),
        _ => {
            eprintln!("usage: gen_trace SEED LINES");
            std::process::exit(2);
        }
    };
    let mut output = io::BufWriter::new(io::stdout());
    let mut outcome = Ok(());
    TraceLines::whole(seed, count, |line| {
        if outcome.is_ok() {
            outcome = output.write_all(line);
        }
    });
    outcome?;
    output.flush()
}
