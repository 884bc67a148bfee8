//! The program `drive` over the twin: reads lines to the end of the input, and then writes.

use std::io::{stdin, stdout, Read, Result, Write};

use drive_twin::{Drive, Twin};

fn main() -> Result<()> {
    let mut input = Vec::new();
    stdin().read_to_end(&mut input)?;
    stdout().write_all(&Drive::new(Twin).answers(&input))
}
