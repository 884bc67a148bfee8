//! The little program: reads lines from standard input, answers each by one line.

use std::io::{stdin, stdout, Read, Result, Write};

use lots_twin::{answers, MOST};

fn main() -> Result<()> {
    let mut input = Vec::new();
    stdin().take(MOST as u64 + 1).read_to_end(&mut input)?;
    stdout().write_all(&answers(&input))
}
