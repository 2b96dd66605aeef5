//! Floors of endorsed blocks (document 02, N6): the sheet with its third array,
//! what a floor lets pass, and the blocks whose floor means nothing.

mod blocks;
mod judged;
mod meets;
mod sheet;
mod sources;
mod unendorsed;

use crate::case::Case;

pub fn cases() -> Vec<Case> {
    [
        sheet::cases(),
        unendorsed::cases(),
        judged::cases(),
        sources::cases(),
        meets::cases(),
        blocks::cases(),
    ]
    .into_iter()
    .flatten()
    .collect()
}

const ARRAY: &str = "Every block gets a floor principal, in a third array of one byte each after \
    the lengths, ignored unless the block is endorsed.";
const BELOW_N: &str = "An endorsed block's floor must be below n, else 8, right after its region.";
const PASSES: &str = "an endorsed assignment passes under rules 2 and 3 when the meet of all \
    labels judged stands at or above the slot's owner, or at or above the floor";
const ALLOWED: &str = "Where rule 0 allows it, an endorsed assignment passes";
