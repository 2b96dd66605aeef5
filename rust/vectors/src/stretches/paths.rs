//! Paths that lead to a step, and paths that don't; labels that follow from outside
//! inwards, and labels that don't.

use super::{crossed_opening, spent_from, HEAD, REFUSED, SET};
use crate::case::{case, Case};
use sheets::*;

pub fn cases() -> Vec<Case> {
    let mut cases = leading();
    cases.extend(forged());
    cases.extend(leading_nowhere());
    cases.extend(past_the_children());
    cases.extend(labels());
    cases.extend(other_blocks());
    cases
}

/// After this many steps, with none left.
const STEPS: u32 = 6;

/// Carried on in that block along this path: copied, with the offset of the command
/// there, or refused.
fn along(words: &str, block: u8, path: &[Taken], offset: Option<usize>) -> Case {
    let slots = crossed_opening();
    let sheet = pause(STEPS, block, path);
    let name = format!("path {words}");
    let draft = spent_from(name, REFUSED, output(&slots), sheet, STEPS);
    match offset {
        Some(offset) => draft.pauses(STEPS, block, path, offset, &slots),
        None => draft.refused_early(19),
    }
}

/// The offsets in block 1, as `part_of_each` has them.
const IF: usize = 3;
const THEN: usize = IF + HEAD + 2;
const WHILE: usize = THEN + SET + 1;
const IN_BODY: usize = WHILE + HEAD;
const LAST: usize = IN_BODY + SET;

fn leading() -> Vec<Case> {
    let to = |words, path: &[Taken], offset| along(words, 1, path, Some(offset));
    vec![
        along("to a block's own assignment", 0, &[], Some(0)),
        to("to an if", &[(1, TOP)], IF),
        to(
            "to a then-part's assignment",
            &[(1, TOP), (0, LEFT), (0, LEFT)],
            THEN,
        ),
        to("to an else-part's while", &[(1, TOP), (1, LEFT)], WHILE),
        to("to a body", &[(1, TOP), (1, LEFT), (0, BOTTOM)], IN_BODY),
        to("to the last command", &[(2, TOP)], LAST),
    ]
}

/// "Guards are not judged again": a label need only stand at or below the one outside.
fn forged() -> Vec<Case> {
    let then_part = |words, label| {
        let path = [(1, TOP), (THEN_PART, label), (0, label)];
        along(words, 1, &path, Some(THEN))
    };
    let else_part = |words, label| {
        let path = [(1, TOP), (ELSE_PART, label)];
        along(words, 1, &path, Some(WHILE))
    };
    let body = |words, outside, label| {
        let path = [(1, TOP), (ELSE_PART, outside), (BODY, label)];
        along(words, 1, &path, Some(IN_BODY))
    };
    vec![
        then_part("with the top in a then-part", TOP),
        then_part("with right in a then-part", RIGHT),
        then_part("with the bottom in a then-part", BOTTOM),
        else_part("with the top in an else-part", TOP),
        else_part("with the bottom in an else-part", BOTTOM),
        body("with left in a body in left", LEFT, LEFT),
        body("with the top in a body in the top", TOP, TOP),
        body("with right in a body in the top", TOP, RIGHT),
        body("with the bottom in a body in the bottom", BOTTOM, BOTTOM),
    ]
}

/// To a skip or a sequence, or into what has no parts.
fn leading_nowhere() -> Vec<Case> {
    let nowhere = |words, path: &[Taken]| along(words, 1, path, None);
    vec![
        nowhere("to a block's own sequence", &[]),
        nowhere("to a skip", &[(0, TOP)]),
        nowhere("to a then-part's sequence", &[(1, TOP), (0, LEFT)]),
        nowhere("to a then-part's skip", &[(1, TOP), (0, LEFT), (1, LEFT)]),
        nowhere("into a skip", &[(0, TOP), (0, TOP)]),
        nowhere("into an assignment", &[(2, TOP), (0, TOP)]),
        nowhere(
            "into an inner assignment",
            &[(1, TOP), (0, LEFT), (0, LEFT), (0, LEFT)],
        ),
        nowhere(
            "into a body's assignment",
            &[(1, TOP), (1, LEFT), (0, BOTTOM), (0, BOTTOM)],
        ),
        along("into a block's own assignment", 0, &[(0, TOP)], None),
        along("of 32 entries", 1, &[(1, TOP); 32], None),
        along("of 125 entries", 1, &[(1, TOP); 125], None),
    ]
}

/// Children are counted from 0.
fn past_the_children() -> Vec<Case> {
    let past = |words: String, path: &[Taken]| along(&words, 1, path, None);
    let mut cases = Vec::new();
    for child in [3, 4, 254, 255] {
        cases.push(past(
            format!("to child {child} of a sequence"),
            &[(child, TOP)],
        ));
    }
    for child in [2, 3, 255] {
        let path = [(1, TOP), (child, LEFT)];
        cases.push(past(format!("to child {child} of an if"), &path));
    }
    for child in [1, 2, 255] {
        let path = [(1, TOP), (ELSE_PART, LEFT), (child, LEFT)];
        cases.push(past(format!("to child {child} of a while"), &path));
    }
    for child in [2, 3, 255] {
        let path = [(1, TOP), (THEN_PART, LEFT), (child, LEFT)];
        cases.push(past(
            format!("to child {child} of an inner sequence"),
            &path,
        ));
    }
    cases
}

/// "a label isn't at or below the one outside it (equal in a sequence)"; outside the
/// first is the top.
fn labels() -> Vec<Case> {
    let name = crate::diamond::name_of;
    let mut cases = Vec::new();
    for label in [LEFT, RIGHT, BOTTOM] {
        let words = format!("with {} in a block's own sequence", name(label));
        cases.push(along(&words, 1, &[(1, label)], None));
        let words = format!("with {} at the end of a block's own sequence", name(label));
        cases.push(along(&words, 1, &[(2, label)], None));
    }
    for label in [TOP, RIGHT, BOTTOM] {
        let words = format!("with {} in a sequence in left", name(label));
        let path = [(1, TOP), (THEN_PART, LEFT), (0, label)];
        cases.push(along(&words, 1, &path, None));
    }
    for (outside, label) in [
        (LEFT, TOP),
        (LEFT, RIGHT),
        (RIGHT, LEFT),
        (BOTTOM, LEFT),
        (BOTTOM, TOP),
    ] {
        let words = format!("with {} in a body in {}", name(label), name(outside));
        let path = [(1, TOP), (ELSE_PART, outside), (BODY, label)];
        cases.push(along(&words, 1, &path, None));
    }
    for label in [4, 31, 32, 128, 131, 255] {
        let words = format!("with a label {label} in a sequence");
        cases.push(along(&words, 1, &[(1, label)], None));
        let words = format!("with a label {label} in an else-part");
        let path = [(1, TOP), (ELSE_PART, label)];
        cases.push(along(&words, 1, &path, None));
    }
    cases
}

/// Blocks that there are not.
fn other_blocks() -> Vec<Case> {
    let mut cases = Vec::new();
    for block in [2, 3, 63, 64, 255] {
        cases.push(along(&format!("in block {block}"), block, &[], None));
        let words = format!("in block {block}, to a command");
        cases.push(along(&words, block, &[(1, TOP)], None));
    }
    let none = |block: u8| {
        case(format!("path in block {block} of none"), REFUSED)
            .budget(0)
            .carry_on(
                output(&[integer(5), integer(7)].map(kept)),
                pause(0, block, &[]),
            )
            .refused_early(19)
    };
    cases.extend([none(0), none(1)]);
    cases
}
