//! Reads a trace on standard input and writes what document 01 says.

use std::io;

fn main() -> io::Result<()> {
    let output = io::BufWriter::new(io::stdout());
    model::trace::run(io::stdin().lock(), output)
}
