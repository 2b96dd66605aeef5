//! What README shows of the wrapper, of order tables, of operations and of pauses.

mod parts;

use muntyzhap::code::{assign, difference, if_command, read, sequence, skip};
use muntyzhap::{check_store, start, Outcome, Refusal, Rule, Value};
use parts::{built, integer, programme_by, slot, store_of, truth, HIGH, LOW, MASKS};

const README: &str = include_str!("../../../README.md");
const CRATE: &str = include_str!("../src/lib.rs");

/// The indented lines from the first that starts so, without their indentation.
fn indented_from<'a>(lines: impl Iterator<Item = &'a str>, start: &str) -> Vec<&'a str> {
    let indented = |line: &&str| line.starts_with("    ");
    let start = format!("    {start}");
    let from = lines.skip_while(|line| !line.starts_with(&start));
    let block = from.take_while(|line| indented(line) || line.is_empty());
    block.filter(indented).map(|line| &line[4..]).collect()
}

/// The indented lines that follow these words.
fn indented_after(words: &str) -> Vec<&'static str> {
    let mut lines = README.lines().skip_while(|line| !line.contains(words));
    assert!(lines.next().is_some(), "{words}");
    indented_from(lines, "")
}

/// Bytes from hexadecimal digits with spaces between.
fn bytes(line: &str) -> Vec<u8> {
    let digits = line.replace(' ', "");
    let places = (0..digits.len()).step_by(2);
    let byte = |place| u8::from_str_radix(&digits[place..place + 2], 16);
    places.map(byte).collect::<Result<_, _>>().expect("digits")
}

/// The lines that the crate's documentation shows of its first example after this
/// line.
fn documented_after(line: &str) -> Vec<&'static str> {
    let lines = CRATE.lines().skip_while(|other| *other != line);
    let lines = lines.skip_while(|line| *line != "//! ```");
    let example = lines.skip(1).take_while(|line| *line != "//! ```");
    let example = example.filter_map(|line| line.strip_prefix("//! "));
    example.filter(|line| !line.starts_with("# ")).collect()
}

/// So that they are compiled and run, as the crate's own examples are.
#[test]
fn the_examples_in_rust_are_the_crate_s() {
    let whole = "//! The proved runner for Rust programs.";
    let slices = "//! # Long work in slices";
    for (start, line) in [
        ("use muntyzhap::code", whole),
        ("use muntyzhap::{carry_on", slices),
    ] {
        let shown = indented_from(README.lines(), start);
        assert!(shown.len() > 10, "{shown:?}");
        assert_eq!(shown, documented_after(line));
    }
}

#[test]
fn two_customers_and_a_laboratory_need_a_principal_below() {
    let first = indented_after("two unrelated principals need a third below both");
    assert_eq!(check_store(&bytes(first[0])), Err(Refusal::OrderTable));
    let mended = indented_after("It takes one more principal");
    assert_eq!(check_store(&bytes(mended[0])), Ok(()));
}

#[test]
fn the_correction_in_bytes_is_that_of_the_builders() {
    let shown = indented_after("`slot 1 := slot 0 - slot 2` is");
    let age = difference(read(0), read(2)).expect("two deep");
    assert_eq!(bytes(shown[0]), assign(1, age).bytes());
}

/// if slot 0 then (slot 0 := false; slot 1 := 7) else skip, after two steps.
#[test]
fn the_pause_sheet_in_bytes_is_that_of_the_library() {
    let shown = bytes(indented_after("the used bytes are")[0]);
    let slots = [slot(LOW, Value::Truth(true)), slot(HIGH, Value::Integer(0))];
    let both = built(sequence(&[assign(0, truth(false)), assign(1, integer(7))]));
    let programme = programme_by(HIGH, built(if_command(read(0), both, skip())));
    let store = store_of(&MASKS, &slots);
    let outcome = start(&store, &programme, Rule::AccessControl, 2);
    let Ok(Outcome::Paused { checkpoint, .. }) = outcome else {
        panic!("not paused: {outcome:?}");
    };
    let (used, unused) = checkpoint.pause_sheet().split_at(shown.len());
    assert_eq!(used, shown);
    assert!(unused.iter().all(|byte| *byte == 0), "{unused:?}");
}
