//! The old output: ill-formed values, and counts that add up to more than the steps.

use super::{crossed_opening, spent_from, REFUSED};
use crate::case::Case;
use sheets::*;

pub fn cases() -> Vec<Case> {
    let mut cases = values();
    cases.extend(counts());
    cases.extend(one_slot());
    cases
}

/// Carried on from these slots after so many steps, at the first block's command,
/// with none left: copied, or refused.
fn from(name: String, slots: &[EndSlot], steps: u32, is_good: bool) -> Case {
    let sheet = pause(steps, 0, &[]);
    let draft = spent_from(name, REFUSED, output(slots), sheet, steps.min(9));
    match is_good {
        true => draft.pauses(steps, 0, &[], 0, slots),
        false => draft.refused_early(19),
    }
}

/// A value of each kind in the first slot, in the middle and in the last, of four.
fn values() -> Vec<Case> {
    let values = [
        ("the least integer", integer(LEAST), true),
        ("false", truth(false), true),
        ("a read view of the last slot", read_view(3), true),
        ("a write view of the last slot", write_view(3), true),
        ("a truth value of 2", value(1, 2), false),
        ("a truth value of 256", value(1, 256), false),
        (
            "a truth value of the upper half",
            value(1, UPPER_HALF),
            false,
        ),
        ("a read view past the slots", read_view(4), false),
        ("a read view of 256", read_view(256), false),
        ("a read view of the last byte", read_view(LAST_BYTE), false),
        ("a write view past the slots", write_view(4), false),
        (
            "a write view of the upper half",
            write_view(UPPER_HALF),
            false,
        ),
        ("a write view of -1", write_view(-1), false),
        ("kind 4", value(4, 0), false),
        ("kind 255", value(255, 0), false),
    ];
    let cases = values.into_iter().flat_map(|(what, value, is_good)| {
        [0, 2, 3].map(|slot: usize| {
            let mut slots = crossed_opening();
            slots[slot].value = value.clone();
            from(format!("old slot {slot} is {what}"), &slots, 4, is_good)
        })
    });
    cases.collect()
}

/// These counts of the four slots, after so many steps.
fn counted(counts: [u32; 4], steps: u32, is_good: bool) -> Case {
    let mut slots = crossed_opening();
    for (slot, count) in slots.iter_mut().zip(counts) {
        slot.writes = count;
    }
    let name = format!("old counts {counts:?} after {steps} steps");
    from(name, &slots, steps, is_good)
}

/// "counts add up to more than the steps", and nothing wraps.
fn counts() -> Vec<Case> {
    const MOST: u32 = u32::MAX;
    const HALF: u32 = 1 << 31;
    vec![
        counted([0; 4], 0, true),
        counted([1, 0, 0, 0], 0, false),
        counted([0, 0, 0, 1], 0, false),
        counted([5, 0, 0, 0], 5, true),
        counted([6, 0, 0, 0], 5, false),
        counted([1, 1, 1, 2], 5, true),
        counted([1, 1, 2, 2], 5, false),
        counted([0, 0, 0, 5], 5, true),
        counted([0, 0, 3, 3], 5, false),
        counted([256, 0, 0, 0], 255, false),
        counted([1 << 16, 0, 0, 0], 5, false),
        counted([1 << 24, 0, 0, 0], 5, false),
        counted([MOST, 1, 0, 0], 5, false),
        counted([MOST, 0, 0, 6], 5, false),
        counted([HALF, HALF, 0, 0], 5, false),
        counted([1 << 30; 4], 5, false),
        counted([MOST; 4], 5, false),
        counted([MOST; 4], MOST, false),
        counted([MOST, 0, 0, 0], MOST, true),
        counted([MOST, 1, 0, 0], MOST, false),
        counted([HALF, HALF - 1, 0, 0], MOST, true),
        counted([HALF, HALF, 0, 0], MOST, false),
        counted([MOST, 0, 0, 0], MOST - 1, false),
        counted([1 << 30; 4], MOST, false),
    ]
}

/// Both at once, and each with the other's being good.
fn one_slot() -> Vec<Case> {
    let with = |what: &str, value: Bytes, writes: u32, is_good| {
        let mut slots = crossed_opening();
        slots[1] = written(writes, value);
        from(format!("old slot 1 is {what}"), &slots, 3, is_good)
    };
    vec![
        with("true, written 3 times", truth(true), 3, true),
        with("of kind 4, written 3 times", value(4, 0), 3, false),
        with("true, written 4 times", truth(true), 4, false),
        with("of kind 4, written 4 times", value(4, 0), 4, false),
    ]
}
