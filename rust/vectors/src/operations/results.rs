//! What the four operations give.

use super::name_of;
use crate::case::{case, Case};
use sheets::*;

pub fn cases() -> Vec<Case> {
    let mut cases = sums();
    cases.extend(differences());
    cases.extend(comparisons());
    cases.extend(equal_integers());
    cases.extend(equal_kinds());
    cases.extend(one_bit());
    cases
}

const WRAPPING: &str = "12 sum and 13 difference of two integers, both wrapping at 64 bits";
const SIGNED: &str = "14 less-than of two integers as signed";
const AGREE: &str = "15 equal, true when kind and payload agree, for values of any kinds";

/// Slots 0 and 1 hold the operands; slot 2 gets what comes of reading both, slot
/// 3 what comes of the same as literals.
fn gives(
    name: String,
    says: &'static str,
    byte: u8,
    [left, right]: [Bytes; 2],
    result: Bytes,
) -> Case {
    let opening = [left.clone(), right.clone(), integer(77), integer(78)];
    let literals = operation(byte, literal(left.clone()), literal(right.clone()));
    let copies = sequence(&[set(2, operation(byte, slot(0), slot(1))), set(3, literals)]);
    case(name, says)
        .store(store(&[1], &opening.map(|value| (0, value))))
        .block(0, copies)
        .rule(3)
        .finishes(
            2,
            &[kept(left), kept(right), once(result.clone()), once(result)],
        )
}

/// Of two integers: their operation, and the integer that it gives.
fn integers(says: &'static str, byte: u8, rows: &[(i64, i64, i64)]) -> Vec<Case> {
    let cases = rows.iter().map(|(left, right, result)| {
        let name = format!("{} of {left} and {right}", name_of(byte));
        let operands = [integer(*left), integer(*right)];
        gives(name, says, byte, operands, integer(*result))
    });
    cases.collect()
}

/// The same where it gives a truth value.
fn truths(says: &'static str, byte: u8, rows: &[(i64, i64, bool)]) -> Vec<Case> {
    let cases = rows.iter().map(|(left, right, holds)| {
        let name = format!("{} of {left} and {right}", name_of(byte));
        let operands = [integer(*left), integer(*right)];
        gives(name, says, byte, operands, truth(*holds))
    });
    cases.collect()
}

/// Small ones, carries from byte to byte and into the upper half, and both ends.
fn sums() -> Vec<Case> {
    let rows = [
        (0, 0, 0),
        (1176, -17, 1159),
        (-5, 5, 0),
        (-3, -4, -7),
        (255, 1, 256),
        ((1 << 31) - 1, 1, 1 << 31),
        ((1 << 32) - 1, 1, 1 << 32),
        (1 << 32, -1, (1 << 32) - 1),
        (GREATEST - 1, 1, GREATEST),
        (LEAST + 1, -1, LEAST),
        (GREATEST, 1, LEAST),
        (1, GREATEST, LEAST),
        (LEAST, -1, GREATEST),
        (-1, LEAST, GREATEST),
        (GREATEST, GREATEST, -2),
        (LEAST, LEAST, 0),
        (GREATEST, LEAST, -1),
    ];
    integers(WRAPPING, SUM, &rows)
}

/// What is taken away stands on the right.
fn differences() -> Vec<Case> {
    let rows = [
        (0, 0, 0),
        (7, 5, 2),
        (5, 7, -2),
        (-3, -4, 1),
        (256, 1, 255),
        (-(1 << 31), 1, -(1 << 31) - 1),
        (1 << 32, 1, (1 << 32) - 1),
        (LEAST + 1, 1, LEAST),
        (LEAST, 1, GREATEST),
        (GREATEST, -1, LEAST),
        (0, LEAST, LEAST),
        (-1, LEAST, GREATEST),
        (LEAST, LEAST, 0),
        (GREATEST, GREATEST, 0),
        (GREATEST, LEAST, -1),
        (LEAST, GREATEST, 1),
    ];
    integers(WRAPPING, DIFFERENCE, &rows)
}

/// Both ways round; across the sign, and where the lower half alone would say
/// otherwise.
fn comparisons() -> Vec<Case> {
    let rows = [
        (1, 2, true),
        (2, 1, false),
        (2, 2, false),
        (-1, 0, true),
        (0, -1, false),
        (-1, 1, true),
        (1, -1, false),
        (-2, -1, true),
        (-1, -2, false),
        (LEAST, GREATEST, true),
        (GREATEST, LEAST, false),
        (LEAST, 0, true),
        (0, LEAST, false),
        (LEAST, LEAST, false),
        (LEAST, LEAST + 1, true),
        (GREATEST - 1, GREATEST, true),
        (GREATEST, GREATEST, false),
        (1 << 32, 1, false),
        (1, 1 << 32, true),
        (1 << 31, 0, false),
        (255, 256, true),
    ];
    truths(SIGNED, LESS_THAN, &rows)
}

fn equal_integers() -> Vec<Case> {
    let rows = [
        (5, 5, true),
        (5, 6, false),
        (5, -5, false),
        (-1, -1, true),
        (LEAST, LEAST, true),
        (GREATEST, GREATEST, true),
        (LEAST, GREATEST, false),
        (-1, (1 << 32) - 1, false),
    ];
    truths(AGREE, EQUAL, &rows)
}

/// Payloads 0 and 1 are good for each kind: values of one kind are equal by
/// their payloads, values of two kinds are not.
fn equal_kinds() -> Vec<Case> {
    let values = (0..4).flat_map(|kind| [0, 1].map(|payload| (kind, payload)));
    let values: Vec<(u8, i64)> = values.collect();
    let pair = |left: (u8, i64), right: (u8, i64)| {
        let name = format!(
            "equal of kind {}, payload {} and kind {}, payload {}",
            left.0, left.1, right.0, right.1
        );
        let operands = [left, right].map(|(kind, payload)| value(kind, payload));
        gives(name, AGREE, EQUAL, operands, truth(left == right))
    };
    let pairs = values
        .iter()
        .flat_map(|left| values.iter().map(|right| pair(*left, *right)));
    pairs.collect()
}

/// An integer, and the same with one bit turned.
fn one_bit() -> Vec<Case> {
    let case_of = |bit: u32| {
        let held = 0x0123_4567_89AB_CDEF_i64;
        let name = format!("equal but for bit {bit}");
        let operands = [integer(held), integer(held ^ (1_i64 << bit))];
        gives(name, AGREE, EQUAL, operands, truth(false))
    };
    (0..64).map(case_of).collect()
}
