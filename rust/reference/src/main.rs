//! The bench program: reads one input from standard input and prints the
//! answer.

use std::io::{self, Read, Write};

fn main() -> io::Result<()> {
    let mut input = Vec::new();
    io::stdin().read_to_end(&mut input)?;
    let answer = reference::bench::answer(&input);
    io::stdout().write_all(answer.as_bytes())
}
