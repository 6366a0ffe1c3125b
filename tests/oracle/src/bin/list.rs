//! The oracle's own listing program: a log on standard input, its listing on standard output.

use std::io::{Read, Result, Write};

fn main() -> Result<()> {
    let mut input = Vec::new();
    std::io::stdin().read_to_end(&mut input)?;
    std::io::stdout().write_all(oracle::listing::listing(&input).as_bytes())
}
