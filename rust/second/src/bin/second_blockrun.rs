//! The printing program of the second runner: reads a rule byte, a budget and
//! both sheets from standard input and prints the answer and the end store.

use std::io::{self, Read, Write};

use second_runner::{print, Input};

fn main() -> io::Result<()> {
    let mut input = Vec::new();
    io::stdin()
        .lock()
        .take(Input::MOST_BYTES as u64)
        .read_to_end(&mut input)?;
    let mut output = io::stdout().lock();
    output.write_all(&print(&input))?;
    output.flush()
}
