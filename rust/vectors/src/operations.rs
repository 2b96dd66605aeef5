//! Sums and comparisons (document 02, N5): what the four operations give, what
//! they are refused for in a step, their labels, how deep they nest, and code in
//! which they are ill-formed.

mod depth;
mod ill_formed;
mod judged;
mod labels;
mod results;
mod trees;
mod uses;

use crate::case::Case;
use sheets::*;

pub fn cases() -> Vec<Case> {
    [
        results::cases(),
        uses::cases(),
        judged::cases(),
        labels::cases(),
        depth::cases(),
        trees::cases(),
        ill_formed::cases(),
    ]
    .into_iter()
    .flatten()
    .collect()
}

fn name_of(operation: u8) -> &'static str {
    match operation {
        SUM => "sum",
        DIFFERENCE => "difference",
        LESS_THAN => "less-than",
        EQUAL => "equal",
        _ => unreachable!("no operation"),
    }
}

fn number(payload: i64) -> Bytes {
    literal(integer(payload))
}
