//! Balanced expressions: an operation of two operations and so on, down to
//! literals, which are numbered from 0 on the left.

use super::depth::{passes, past, DEEP, MOST};
use super::number;
use crate::case::{case, Case};
use sheets::*;

pub fn cases() -> Vec<Case> {
    let mut cases = balanced();
    cases.extend(ninth_in_balanced());
    cases
}

/// An operation of two such trees, down to leaves, which are numbered from 0 on
/// the left.
fn tree(byte: u8, depth: u32, first: usize, leaf: &dyn Fn(usize) -> Bytes) -> Bytes {
    if depth == 0 {
        return leaf(first);
    }
    let half = 1 << (depth - 1);
    let left = tree(byte, depth - 1, first, leaf);
    operation(byte, left, tree(byte, depth - 1, first + half, leaf))
}

fn one(_: usize) -> Bytes {
    number(1)
}

/// Depth is not the number of operations: 15 are 4 deep, 255 are 8 deep.
fn balanced() -> Vec<Case> {
    let own = |name: &str, expression, result| {
        case(name, DEEP)
            .block(0, set(0, expression))
            .rule(3)
            .finishes(1, &[once(result), kept(integer(7))])
    };
    let sums = |depth| tree(SUM, depth, 0, &one);
    // Leaf 77 alone is not 1; each difference takes away what is on the right.
    let differences = tree(DIFFERENCE, 8, 0, &|leaf| {
        number(if leaf == 77 { 100 } else { 1 })
    });
    vec![
        own("15 sums 4 deep", sums(4), integer(16)),
        own("255 sums 8 deep", sums(8), integer(256)),
        // 77 is 1001101 in binary, with four ones: it is added.
        own("255 differences 8 deep", differences, integer(99)),
        own(
            "equal of 127 sums each",
            equal(sums(7), sums(7)),
            truth(true),
        ),
        own(
            "less-than of 127 sums and 63",
            less_than(sums(7), sum(number(0), sums(6))),
            truth(false),
        ),
        passes("255 equals 8 deep".into(), tree(EQUAL, 8, 0, &one)),
    ]
}

/// The bytes before a leaf of a tree 8 deep: each leaf before it, and each
/// operation whose first leaf it is or comes before it.
fn before_leaf(leaf: usize) -> usize {
    let operations: usize = (1..=MOST).map(|height| (leaf >> height) + 1).sum();
    operations + LITERAL * leaf
}

/// In place of a leaf stands a ninth.
fn ninth_in_balanced() -> Vec<Case> {
    let ninth_at = |leaves: &'static [usize]| {
        let leaf = |number_of: usize| match leaves.contains(&number_of) {
            true => sum(number(1), number(1)),
            false => number(1),
        };
        let words: Vec<String> = leaves.iter().map(usize::to_string).collect();
        let name = format!("255 sums and one more at leaf {}", words.join(" and "));
        past(name, tree(SUM, 8, 0, &leaf), before_leaf(leaves[0]))
    };
    let read_at_last = tree(SUM, 8, 0, &|leaf| match leaf {
        255 => slot(0),
        _ => number(1),
    });
    vec![
        ninth_at(&[0]),
        ninth_at(&[1]),
        ninth_at(&[127]),
        ninth_at(&[128]),
        ninth_at(&[254]),
        ninth_at(&[255]),
        ninth_at(&[3, 200]),
        past(
            "255 sums and a read at the last leaf".into(),
            read_at_last,
            before_leaf(255),
        ),
    ]
}
