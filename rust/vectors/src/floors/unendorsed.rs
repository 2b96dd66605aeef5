//! Blocks that are not endorsed: any byte may be their floor, and it means
//! nothing.

use crate::case::{case, Case, Draft};
use sheets::*;

pub fn cases() -> Vec<Case> {
    let mut cases = low_values();
    cases.extend(literals());
    cases.extend(other_refusals());
    cases.push(in_64_blocks());
    cases
}

fn ignored(name: impl Into<String>) -> Draft {
    case(name, "ignored unless the block is endorsed")
}

/// Document 01's example: its second block is judged as it was, whether its floor
/// is the bottom, the top or no principal. Rules 0 and 1 judge no label.
fn low_values() -> Vec<Case> {
    let example = |floor: u8, rule: u32| {
        ignored(format!(
            "a low value, ignored floor {floor:02X}, rule {rule}"
        ))
        .programme(example_with_floors([0, 1], [floor, floor]))
        .rule(rule)
    };
    let end = [integer(42), integer(42)].map(once);
    let judged = [0x00, 0x01, 0x02, 0xFF].map(|floor| example(floor, 3).refused(16, 1, 0, 1));
    let rules = [
        example(0xFF, 0).finishes(2, &end),
        example(0xFF, 1).finishes(2, &end),
        example(0x00, 2).refused(16, 1, 0, 1),
    ];
    judged.into_iter().chain(rules).collect()
}

fn literals() -> Vec<Case> {
    let up = |floor: u8| {
        ignored(format!("a literal, ignored floor {floor:02X}"))
            .floored(1, floor, set_integer(1, 9))
            .rule(3)
            .finishes(1, &[kept(integer(5)), once(integer(9))])
    };
    [0x02, 0x80, 0xFF].map(up).into()
}

/// What else is judged of the block is told, and its floor is not.
fn other_refusals() -> Vec<Case> {
    let block = |name, region, code| ignored(name).floored(region, 0xFF, code).rule(3);
    vec![
        block("code, ignored floor FF", 1, vec![0x25]).refused(9, 0, 0, 0),
        block("output, ignored floor FF", 1, skip())
            .output(1)
            .refused_early(12),
        block("authority, ignored floor FF", 0, set_integer(1, 9)).refused(14, 0, 0, 0),
    ]
}

/// The floors go from 00 to FF.
fn in_64_blocks() -> Case {
    let block = |i: u8| (1, 4 * i + 3 * (i % 2), set_integer(1, i64::from(i)));
    let blocks: Vec<FlooredBlock> = (0..64).map(block).collect();
    ignored("64 ignored floors")
        .floored_blocks(&blocks)
        .rule(3)
        .finishes(64, &[kept(integer(5)), written(64, integer(63))])
}
