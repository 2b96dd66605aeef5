//! The output has 13 bytes a slot; with nine, as before, it is refused by 12.

use super::WIDTH;
use crate::case::{case, Case};
use sheets::*;

pub fn cases() -> Vec<Case> {
    let mut cases = widths();
    cases.extend(alike());
    cases.extend(under_each_rule());
    cases
}

/// Slots that nothing writes, with an output of this many bytes.
fn lent(slots: usize, bytes: usize) -> Case {
    let draft = case(format!("{slots} slots, output of {bytes} bytes"), WIDTH)
        .store(store(&[1], &vec![(0, integer(5)); slots]))
        .output(bytes);
    if bytes == OUTPUT_SLOT * slots {
        draft.finishes(0, &vec![kept(integer(5)); slots])
    } else {
        draft.refused_early(12)
    }
}

/// The values alone, all bytes but one, all, and one more.
fn widths() -> Vec<Case> {
    let cases = [1, 2, 3, 256].into_iter().flat_map(|slots| {
        let full = OUTPUT_SLOT * slots;
        [VALUE * slots, full - 1, full, full + 1].map(|bytes| lent(slots, bytes))
    });
    cases.collect()
}

/// 117 bytes are the values of 13 slots, and all of 9 slots.
fn alike() -> Vec<Case> {
    vec![lent(13, 13 * 9), lent(9, 9 * 13), lent(13, 13 * 13)]
}

/// Before the run, so before 17 and 18.
fn under_each_rule() -> Vec<Case> {
    let under = |rule: u32| {
        case(format!("output of 9 bytes a slot, rule {rule}"), WIDTH)
            .programme(example_programme([0, 1]))
            .rule(rule)
            .budget(0)
            .journal(0)
            .output(2 * VALUE)
            .refused_early(12)
    };
    RULES.map(under).into()
}
