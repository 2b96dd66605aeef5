//! The writing journal (document 02, N7): 18 and its place among the refusals,
//! counts, the width of the output, and runs whose entries are worked by hand.

mod changes;
mod counts;
mod entries;
mod guards;
mod lengths;
mod order;
mod outputs;
mod places;

use crate::case::Case;

pub fn cases() -> Vec<Case> {
    [
        lengths::cases(),
        order::cases(),
        guards::cases(),
        places::cases(),
        changes::cases(),
        counts::cases(),
        outputs::cases(),
        entries::cases(),
    ]
    .into_iter()
    .flatten()
    .collect()
}

const FULL: &str = "18 when an assignment comes and no entry is free, judged after 17 and before \
    the target is evaluated.";
const COUNTED: &str = "Each slot's record gains a count of its writes, 0 at opening";
const WIDTH: &str = "output gains 4 bytes of it after each value, so a slot takes 13 bytes";
