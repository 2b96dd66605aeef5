//! Code that is ill-formed in an operand (9), and where.

use super::{name_of, number};
use crate::case::{case, Case};
use sheets::*;

pub fn cases() -> Vec<Case> {
    let mut cases = unknown_bytes();
    cases.extend(bad_literals());
    cases.extend(cut());
    cases.extend(cut_payloads());
    cases.extend(one_operand_short());
    cases.extend(left_over());
    cases.extend(as_commands());
    cases
}

/// One block of region 0, refused ahead of the run.
fn ill_formed(name: impl Into<String>, says: &'static str, code: Bytes, offset: usize) -> Case {
    case(name, says).block(0, code).refused(9, 0, offset, 0)
}

/// Where an assignment's value stands, after 21 and a target.
const VALUE: usize = 1 + LITERAL;

/// Next to the known ones, bytes of commands, and 15 with its highest bit set.
fn unknown_bytes() -> Vec<Case> {
    let says = "An unknown byte or bad count is placed at that byte";
    let cases = OPERATIONS.into_iter().flat_map(|byte| {
        let unknown = [0x00, 0x0F, 0x16, 0x20, 0x24, 0x95, 0xFF];
        unknown.into_iter().flat_map(move |other| {
            let name = |side: &str| format!("code {other:02X} for {}'s {side}", name_of(byte));
            let left = operation(byte, vec![other], number(1));
            let right = operation(byte, number(1), vec![other]);
            let both = operation(byte, vec![other], vec![other]);
            [
                ill_formed(name("left"), says, set(0, left), VALUE + 1),
                ill_formed(name("right"), says, set(0, right), VALUE + 1 + LITERAL),
                ill_formed(name("left and right"), says, set(0, both), VALUE + 1),
            ]
        })
    });
    cases.collect()
}

/// A bad literal stands at its kind byte. In either operand, in both, and inside
/// a read or an operation there.
fn bad_literals() -> Vec<Case> {
    let says = "a bad literal at its kind byte";
    let bad = [
        ("of kind 4", value(4, 0)),
        ("of kind FF", value(0xFF, 0)),
        ("truth 2", value(1, 2)),
        ("read view of slot m", read_view(2)),
        ("write view of slot m", write_view(2)),
        ("view, last byte 1", read_view(LAST_BYTE)),
    ];
    let right = VALUE + 1 + LITERAL;
    let cases = bad.into_iter().flat_map(|(what, value)| {
        let at = |place: &str, expression, offset| {
            let name = format!("literal {what} as {place}");
            ill_formed(name, says, set(0, expression), offset)
        };
        let bad = || literal(value.clone());
        [
            at("a sum's left", sum(bad(), number(1)), VALUE + 2),
            at("a sum's right", sum(number(1), bad()), right + 1),
            at("an equal's left and right", equal(bad(), bad()), VALUE + 2),
            at(
                "a read in a sum's left",
                sum(read(bad()), number(1)),
                VALUE + 3,
            ),
            at(
                "a read in a sum's right",
                sum(number(1), read(bad())),
                right + 2,
            ),
            at(
                "a difference's right in a sum's right",
                sum(number(1), difference(number(2), bad())),
                right + 1 + LITERAL + 1,
            ),
        ]
    });
    cases.collect()
}

const EARLY: &str = "code that ends early (offset: the block's length)";

/// Each operation, and one in another's operand, cut after each of its bytes.
fn cut() -> Vec<Case> {
    let cut = |name: &str, whole: &Bytes, length: usize| {
        let name = format!("{name} cut to {length} bytes");
        let code = join(&[&[0x24], &whole[..length]]);
        ill_formed(name, EARLY, code, 1 + length)
    };
    let each = OPERATIONS.into_iter().flat_map(|byte| {
        let whole = operation(byte, number(3), slot(0));
        let lengths = [1, 2, 3, 1 + LITERAL, 2 + LITERAL, whole.len() - 1];
        lengths.map(|length| cut(name_of(byte), &whole, length))
    });
    let nested = sum(difference(slot(1), number(2)), equal(number(3), slot(0)));
    let all = 1..=nested.len();
    let all = all.map(|length| cut("sum of a difference and an equal", &nested, length));
    each.chain(all).collect()
}

/// In an operand too "the kind is judged before the payload's bytes are
/// counted".
fn cut_payloads() -> Vec<Case> {
    let first = "the kind is judged before the payload's bytes are counted";
    let in_left = |kind: u8, bytes| join(&[&[0x24, SUM, 0x10, kind], &vec![0xFF; bytes]]);
    let in_right = |kind: u8, bytes| {
        let head = join(&[&[0x24, SUM], &number(1), &[0x10, kind]]);
        join(&[&head, &vec![0xFF; bytes]])
    };
    let cases = [0, 4, 7].into_iter().flat_map(|bytes| {
        let name = |kind: u8, side: &str| {
            format!("kind {kind} and {bytes} bytes of its payload in a sum's {side}")
        };
        [
            ill_formed(name(1, "left"), EARLY, in_left(1, bytes), 4 + bytes),
            ill_formed(name(4, "left"), first, in_left(4, bytes), 3),
            ill_formed(
                name(1, "right"),
                EARLY,
                in_right(1, bytes),
                4 + LITERAL + bytes,
            ),
            ill_formed(name(4, "right"), first, in_right(4, bytes), 3 + LITERAL),
        ]
    });
    cases.collect()
}

/// What follows is taken for the missing operand: a target's right one is the
/// value, and a guard's is no command.
fn one_operand_short() -> Vec<Case> {
    let says = "Each is followed by two expressions.";
    let short = |byte| join(&[&[byte], &number(1)]);
    let cases = OPERATIONS.into_iter().flat_map(|byte| {
        let name = |what: &str| format!("{} with one operand as {what}", name_of(byte));
        let target = assign(short(byte), number(2));
        let length = target.len();
        let guard = while_do(short(byte), skip());
        let value = set(0, short(byte));
        let behind = value.len();
        [
            ill_formed(name("target"), says, target, length),
            ill_formed(name("guard"), says, guard, 1 + 1 + LITERAL),
            ill_formed(name("value"), says, value, behind),
        ]
    });
    cases.collect()
}

/// A third operand is left over, or no command.
fn left_over() -> Vec<Case> {
    let three = join(&[&sum(number(1), number(2)), &number(3)]);
    let code = set(0, three.clone());
    let at = code.len() - LITERAL;
    let guard = while_do(three, skip());
    vec![
        ill_formed(
            "a sum of three as value",
            "bytes left over (the first of them)",
            code,
            at,
        ),
        ill_formed(
            "a sum of three as guard",
            "An unknown byte or bad count is placed at that byte",
            guard,
            1 + 1 + 2 * LITERAL,
        ),
    ]
}

/// An operation is no command, at any depth.
fn as_commands() -> Vec<Case> {
    let says = "An unknown byte or bad count is placed at that byte";
    let cases = OPERATIONS.into_iter().flat_map(|byte| {
        let whole = operation(byte, number(1), number(2));
        let alone = format!("{} for a command", name_of(byte));
        let second = format!("{} in a sequence", name_of(byte));
        [
            ill_formed(alone, says, whole.clone(), 0),
            ill_formed(second, says, sequence(&[skip(), whole]), 3),
        ]
    });
    cases.collect()
}
