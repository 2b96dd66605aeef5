//! What comes up in printing, and programs that print otherwise.

use super::*;
use crate::sheets::plain_store;
use crate::{Play, DEFAULT_SEED};
use std::process::ExitStatus;

/// What a program does that prints this and ends well.
fn seen(bytes: Vec<u8>, input: &[u8]) -> Printed {
    Printed {
        bytes,
        status: ExitStatus::default(),
        left_unread: input.len() > second_runner::Input::MOST_BYTES,
    }
}

#[test]
fn everything_comes_up() {
    let print = |input: &[u8]| Ok(seen(second_runner::print(input), input));
    for seed in DEFAULT_SEED..DEFAULT_SEED + 3 {
        let played = play_by(print, seed, Play::Prints.default_count());
        let complaints = played.expect("no difference").complaints();
        assert!(complaints.is_empty(), "seed {seed}: {complaints:?}");
    }
}

#[test]
fn what_never_comes_up_is_told() {
    let mut played = Played::new();
    let before = played.complaints().len();
    let least = b"end 0 block 0 at 0 steps 0\n0 0 0 -9223372036854775808 0 1\n0\n";
    played.count(End::Right, None, &seen(least.to_vec(), &[]));
    // The answer, the input's end, the kind, the digits and the integer, the
    // total, the digits of the count and the principals above.
    assert_eq!(played.complaints().len(), before - 8);
    played.count(End::Right, None, &seen(b"end".to_vec(), &[]));
    assert_eq!(played.complaints().len(), before - 7);
    let store = plain_store(1, 1).bytes();
    played.count(End::Right, Some(&store), &seen(least.to_vec(), &[]));
    assert_eq!(played.complaints().len(), before - 7);
    let other = plain_store(2, 1).bytes();
    played.count(End::Right, Some(&other), &seen(least.to_vec(), &[]));
    assert_eq!(played.complaints().len(), before - 6);
}

/// How many inputs a program prints differently that changes the text so,
/// and the shortest.
fn differing(change: impl Fn(String) -> String) -> (u64, Difference) {
    let print = |input: &[u8]| {
        let text = String::from_utf8(second_runner::print(input)).expect("text");
        Ok(seen(change(text).into_bytes(), input))
    };
    match play_by(print, DEFAULT_SEED, 300) {
        Err(Stopped::Differs(count, shortest)) => (count, *shortest),
        other => panic!("no difference: {other:?}"),
    }
}

/// The text with each slot's line changed so, by its words.
fn with_slot_lines(text: String, change: impl Fn(&mut Vec<&str>)) -> String {
    let lines = text.lines().map(|line| {
        let mut words: Vec<&str> = line.split(' ').collect();
        if words.len() == 6 {
            change(&mut words);
        }
        words.join(" ") + "\n"
    });
    lines.collect()
}

fn without_total(text: String) -> String {
    let lines = text.lines().filter(|line| line.contains(' '));
    lines.map(|line| line.to_string() + "\n").collect()
}

fn without_above(text: String) -> String {
    with_slot_lines(text, |words| words.truncate(5))
}

fn with_count_before(text: String) -> String {
    with_slot_lines(text, |words| words.swap(3, 4))
}

/// The owner is not counted among the principals at or above it.
fn without_owner(text: String) -> String {
    with_slot_lines(text, |words| {
        words[5] = match words[5] {
            "1" => "0",
            "2" => "1",
            more => more,
        }
    })
}

#[test]
fn a_program_that_prints_otherwise_is_told() {
    let (without_minus, shortest) = differing(|text| text.replace('-', ""));
    assert!(without_minus < 300);
    assert!(shortest.second.contains(&b'-'), "{shortest}");
    let last_newline_cut = differing(|text| text.trim_end().to_string());
    assert_eq!(last_newline_cut.0, 300);
    for change in [
        without_total,
        without_above,
        with_count_before,
        without_owner,
    ] {
        let (count, shortest) = differing(change);
        assert!((1..300).contains(&count));
        assert!(shortest.second.starts_with(b"end 0"), "{shortest}");
    }
    let (finished, shortest) = differing(|text| text.replace("end 0", "end 1"));
    assert!(finished < 300);
    assert!(shortest.second.starts_with(b"end 0"), "{shortest}");
}

#[test]
fn the_shortest_difference_is_told() {
    let (count, shortest) = differing(|text| text + "more\n");
    assert_eq!((count, shortest.input), (300, vec![]));
}
