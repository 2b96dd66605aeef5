//! The bytes of the list as the program reads it, and the lines that it must
//! print. `crates/vectors/specs/Cases.antt` says the same of a case's bytes.

use crate::case::{Case, Checkpoint, Expected, Stretch};
use sheets::*;

/// The word that each case starts with.
const MARK: &[u8; 4] = b"case";

/// The number of cases, and the cases.
pub fn list_bytes(cases: &[Case]) -> Bytes {
    let count = two_bytes(cases.len());
    let cases: Vec<Bytes> = cases.iter().map(case_bytes).collect();
    join(&[&count, &cases.concat()])
}

/// Mark, kind of call, length of the name, rule, budget, lengths of output, journal,
/// pause buffer, store sheet, programme sheet, old output and old pause sheet; then
/// the name, the sheets, and what is carried on from.
fn case_bytes(case: &Case) -> Bytes {
    let name = case.name.as_bytes();
    let call = &case.call;
    let stretch = case.stretch.as_ref();
    let pause = stretch.map_or(0, |stretch| stretch.pause);
    let old = stretch.and_then(|stretch| stretch.old.as_ref());
    let (old_output, old_pause) = match old {
        Some(Checkpoint { output, pause }) => (&output[..], &pause[..]),
        None => Default::default(),
    };
    join(&[
        MARK,
        &[kind(stretch), one_byte(name.len())],
        &call.rule.to_le_bytes(),
        &call.budget.to_le_bytes(),
        &two_bytes(case.output),
        &two_bytes(call.journal),
        &two_bytes(pause),
        &two_bytes(call.store.len()),
        &two_bytes(call.programme.len()),
        &two_bytes(old_output.len()),
        &two_bytes(old_pause.len()),
        name,
        &call.store,
        &call.programme,
        old_output,
        old_pause,
    ])
}

/// 0 run, 1 start, 2 carry on.
fn kind(stretch: Option<&Stretch>) -> u8 {
    match stretch {
        None => 0,
        Some(Stretch { old: None, .. }) => 1,
        Some(Stretch { old: Some(_), .. }) => 2,
    }
}

fn one_byte(size: usize) -> u8 {
    u8::try_from(size).expect("a size of one byte")
}

fn two_bytes(size: usize) -> [u8; 2] {
    u16::try_from(size)
        .expect("a size of two bytes")
        .to_le_bytes()
}

/// A line for each case, and one for their number.
pub fn lines(cases: &[Case]) -> String {
    let lines: String = cases.iter().map(line).collect();
    format!("{lines}cases played: {}\n", cases.len())
}

fn line(case: &Case) -> String {
    let answer = case.expected.answer;
    format!(
        "{}: end {} block {} at {} steps {} output{}{}\n",
        case.name,
        answer.number,
        answer.block,
        answer.offset,
        answer.steps,
        output_text(&case.expected),
        pause_text(case)
    )
}

/// The bytes of each slot in hexadecimal; where none were written, that they are as
/// they were.
fn output_text(expected: &Expected) -> String {
    match &expected.end {
        None => " untouched".into(),
        Some(end) if end.is_empty() => " empty".into(),
        Some(end) => end.chunks(OUTPUT_SLOT).map(hex_text).collect(),
    }
}

/// Of a call in stretches the bytes of the pause sheet too, in one.
fn pause_text(case: &Case) -> String {
    match (&case.stretch, &case.expected.pause) {
        (None, _) => String::new(),
        (Some(_), None) => " pause untouched".into(),
        (Some(_), Some(sheet)) => format!(" pause{}", hex_text(sheet)),
    }
}

fn hex_text(bytes: &[u8]) -> String {
    let digits: String = bytes.iter().map(|byte| format!("{byte:02x}")).collect();
    format!(" {digits}")
}
