//! The principals of the diamond and of the kite (`sheets`) by name.

use sheets::*;

/// The diamond's, by number.
pub const OWNERS: [u8; 4] = [LEFT, RIGHT, BOTTOM, TOP];

const NAMES: [&str; 5] = ["left", "right", "bottom", "top", "stem"];

pub fn name_of(principal: u8) -> &'static str {
    NAMES[usize::from(principal)]
}

/// In the diamond.
pub fn at_or_below(lower: u8, upper: u8) -> bool {
    lower == upper || lower == BOTTOM || upper == TOP
}
