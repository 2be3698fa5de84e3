//! Reads standard input, writes standard output.

use std::io::{self, Read, Write};

use second::numbers::MOST_INPUT_BYTES;

fn main() -> io::Result<()> {
    // One byte more than is allowed shows that the input is too long.
    let mut input = Vec::new();
    io::stdin().lock().take(MOST_INPUT_BYTES as u64 + 1).read_to_end(&mut input)?;
    let mut output = io::stdout().lock();
    output.write_all(&second::run(&input))?;
    output.flush()
}
