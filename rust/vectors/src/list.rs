//! All cases, in the order in which they are played.

use crate::case::Case;
use crate::{
    arguments, branches, code, depth, descents, floors, journals, labels, operations, paper,
    payloads, programme_sheets, steps, store_sheets, stretches, views, worked_examples,
};

pub fn cases() -> Vec<Case> {
    [
        worked_examples::cases(),
        arguments::cases(),
        store_sheets::cases(),
        programme_sheets::cases(),
        code::cases(),
        depth::cases(),
        steps::cases(),
        views::cases(),
        labels::cases(),
        branches::cases(),
        descents::cases(),
        payloads::cases(),
        operations::cases(),
        floors::cases(),
        journals::cases(),
        paper::cases(),
        stretches::cases(),
    ]
    .into_iter()
    .flatten()
    .collect()
}
