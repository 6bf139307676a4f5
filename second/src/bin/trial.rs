//! The trial program: standard input to standard output.

use second::trial::{output, LONGEST_INPUT};
use std::io::{stdin, stdout, Read, Write};

fn main() -> std::io::Result<()> {
    let mut input = vec![];
    // one byte more than is taken shows that the input is too long
    stdin().take(LONGEST_INPUT as u64 + 1).read_to_end(&mut input)?;
    stdout().write_all(&output(&input))
}
