//! The list of cases that the proved program `vectors` plays. Each stands
//! once, with the sentence that it is about and its answer, worked by hand.
//! `cargo run` writes the list and the lines that it must give to
//! `crates/vectors`; the tests hold the second runner and those two files to
//! the list.

#![forbid(unsafe_code)]

pub mod case;
pub mod layout;
pub mod list;
pub mod paper;

mod arguments;
mod branches;
mod code;
mod depth;
mod descents;
mod diamond;
mod floors;
mod journals;
mod labels;
mod operations;
mod payloads;
mod programme_sheets;
mod steps;
mod store_sheets;
mod stretches;
#[cfg(test)]
mod tests;
mod views;
mod worked_examples;

use std::path::PathBuf;

/// What the program reads, and what it must write.
pub const LIST: &str = "stdin";
pub const LINES: &str = "stdout";

/// Where the program's files stand.
pub fn file(name: &str) -> PathBuf {
    let program = PathBuf::from(env!("CARGO_MANIFEST_DIR")).join("../../crates/vectors");
    program.join(name)
}
