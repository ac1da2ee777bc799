//! The program `planbook`: reads standard input, writes standard output.

use reference::planbook::transcript;
use std::io::{stdin, stdout, Read, Write};

fn main() -> std::io::Result<()> {
    let mut input = Vec::new();
    stdin().read_to_end(&mut input)?;
    stdout().write_all(&transcript(&input))
}
