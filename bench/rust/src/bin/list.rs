//! The listing of standard input by the second Rust implementation, to measure against.
#![forbid(unsafe_code)]

use std::io::{self, BufReader, BufWriter, Write};

fn main() -> io::Result<()> {
    let mut input = BufReader::with_capacity(65536, io::stdin().lock());
    let mut output = BufWriter::with_capacity(65536, io::stdout().lock());
    second::listing::list(&mut input, &mut output)?;
    output.flush()
}
