//! Writes the list of cases, and the lines that it must give.

use std::{fs, io};

use vectors::{file, layout, list, LINES, LIST};

fn main() -> io::Result<()> {
    let cases = list::cases();
    fs::write(file(LIST), layout::list_bytes(&cases))?;
    fs::write(file(LINES), layout::lines(&cases))?;
    println!("{} cases written", cases.len());
    Ok(())
}
