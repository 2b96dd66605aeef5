//! The play of the printing program, with a program that isn't there and with
//! one that prints something else.

use std::process::{Command, Output};

const COMPARE: &str = env!("CARGO_BIN_EXE_compare");

/// A short play with this in place of the printing program.
fn play(program: &str) -> Output {
    Command::new(COMPARE)
        .args(["prints", "--count", "3"])
        .env("MUNTYZHAP_BLOCKRUN", program)
        .output()
        .expect("the play ends")
}

/// The play fails and says this.
fn assert_told(played: &Output, words: &[&str]) {
    let text = String::from_utf8_lossy(&played.stdout);
    assert_eq!(played.status.code(), Some(1), "{text}");
    assert!(words.iter().all(|word| text.contains(word)), "{text}");
}

#[test]
fn a_program_that_is_not_there_is_told() {
    let played = play("/no/such/program");
    assert_told(&played, &["/no/such/program", "`rt run` in crates/blockrun"]);
}

/// This program itself: without arguments it prints nothing and fails.
#[test]
fn a_program_that_prints_something_else_is_told() {
    let played = play(COMPARE);
    assert_told(&played, &["3 inputs", "exit status: 2", "\"end "]);
}
