//! Code that is ill-formed (9), and where.

use crate::case::{case, Case};
use sheets::*;

pub fn cases() -> Vec<Case> {
    let mut cases = unknown_commands();
    cases.extend(unknown_expressions());
    cases.extend(bad_counts());
    cases.extend(early_ends());
    cases.extend(cut_blocks());
    cases.extend(left_over());
    cases.extend(bad_literals());
    cases.extend(cut_payloads());
    cases
}

/// One block of region 0, refused ahead of the run.
fn ill_formed(name: impl Into<String>, says: &'static str, code: Bytes, offset: usize) -> Case {
    case(name, says).block(0, code).refused(9, 0, offset, 0)
}

const UNKNOWN: &str = "An unknown byte or bad count is placed at that byte";

/// Next to the known ones, the known ones with their highest bit set, and bytes
/// that start an expression.
fn unknown_commands() -> Vec<Case> {
    let bytes = [
        0x00, 0x10, 0x11, 0x15, 0x16, 0x1F, 0x25, 0x7F, 0xA0, 0xA4, 0xFF,
    ];
    let alone = bytes.map(|byte| {
        let name = format!("code {byte:02X}");
        ill_formed(name, UNKNOWN, vec![byte], 0)
    });
    let second = bytes.map(|byte| {
        let name = format!("code {byte:02X} in a sequence");
        ill_formed(name, UNKNOWN, vec![0x22, 2, 0x20, byte], 3)
    });
    alone.into_iter().chain(second).collect()
}

/// The same with bytes that start a command.
fn unknown_expressions() -> Vec<Case> {
    let bytes = [0x00, 0x0F, 0x16, 0x20, 0x24, 0x90, 0x91, 0xFF];
    let at = |byte, place, code, offset| {
        let name = format!("code {byte:02X} {place}");
        ill_formed(name, UNKNOWN, code, offset)
    };
    let cases = bytes.into_iter().flat_map(|byte| {
        let value = join(&[&[0x21], &literal(write_view(0)), &[byte]]);
        [
            at(byte, "for a target", vec![0x21, byte], 1),
            at(byte, "for a value", value, 1 + LITERAL),
            at(byte, "for a guard", vec![0x24, byte], 1),
            at(byte, "after a read", vec![0x24, 0x11, byte], 2),
        ]
    });
    cases.collect()
}

fn bad_counts() -> Vec<Case> {
    let says = "22 sequence, a count byte 2 to 255, then that many commands";
    let end = [integer(5), integer(7)].map(kept);
    let inner = vec![0x22, 2, 0x20, 0x22, 1, 0x20];
    vec![
        ill_formed("count 0", says, vec![0x22, 0], 1),
        ill_formed("count 0 and a command", says, vec![0x22, 0, 0x20], 1),
        ill_formed("count 1", says, vec![0x22, 1], 1),
        ill_formed("count 1 and a command", says, vec![0x22, 1, 0x20], 1),
        ill_formed("count 1 in a sequence", says, inner, 4),
        case("count 2", says)
            .block(0, sequence(&vec![skip(); 2]))
            .finishes(0, &end),
        case("count 255", says)
            .block(0, sequence(&vec![skip(); 255]))
            .finishes(0, &end),
    ]
}

const EARLY: &str = "code that ends early (offset: the block's length)";

fn early_ends() -> Vec<Case> {
    let cut = |name, code: Bytes| {
        let length = code.len();
        ill_formed(name, EARLY, code, length)
    };
    let one_part = join(&[&[0x23], &literal(truth(true)), &skip()]);
    vec![
        cut("code of no bytes", vec![]),
        cut("code ends after an assignment's byte", vec![0x21]),
        cut("code ends after a sequence's byte", vec![0x22]),
        cut("code ends before the second command", vec![0x22, 2, 0x20]),
        cut("code ends before the else-part", one_part),
        cut("code ends before a kind", vec![0x21, 0x10]),
    ]
}

/// Each kind of command and expression, cut after each of its bytes.
fn cut_blocks() -> Vec<Case> {
    let whole = sequence(&[
        if_else(slot(0), set_integer(0, 3), skip()),
        while_do(literal(truth(false)), set(1, equal(slot(1), slot(0)))),
        skip(),
    ]);
    let cut = |length: usize| {
        let name = format!("code cut to {length} bytes");
        ill_formed(name, EARLY, whole[..length].to_vec(), length)
    };
    (1..whole.len()).map(cut).collect()
}

fn left_over() -> Vec<Case> {
    let says = "bytes left over (the first of them)";
    let assignment = set_integer(0, 9);
    let after = assignment.len();
    let behind = |more: &[u8]| join(&[&assignment, more]);
    vec![
        ill_formed("two skips", says, vec![0x20, 0x20], 1),
        ill_formed("nine bytes after a skip", says, [0x20; 10].into(), 1),
        ill_formed("a byte after an assignment", says, behind(&[0xFF]), after),
        ill_formed("00 after an assignment", says, behind(&[0x00]), after),
        ill_formed("two assignments", says, behind(&assignment), after),
        ill_formed(
            "half an assignment after one",
            says,
            behind(&[0x21, 0x10]),
            after,
        ),
    ]
}

/// A bad literal stands at its kind byte, whatever is wrong with it: byte 2 of a
/// target, byte 3 of a guard's read, and of a value after 21, a target and 10.
fn bad_literals() -> Vec<Case> {
    let placed = "a bad literal at its kind byte";
    let bad = [
        ("of kind 4", value(4, 0)),
        ("of kind 10", value(0x10, 0)),
        ("of kind FF", value(0xFF, 0)),
        ("truth 2", value(1, 2)),
        ("read view of slot m", read_view(2)),
        ("write view of slot m", write_view(2)),
        ("view of slot 256", write_view(0x100)),
        ("view of slot -1", write_view(-1)),
    ];
    let cases = bad.into_iter().flat_map(|(what, value)| {
        let target = assign(literal(value.clone()), literal(integer(1)));
        let guard = while_do(read(literal(value.clone())), skip());
        let assigned = set(0, literal(value));
        let at = |place, code, offset| {
            let name = format!("literal {what} as {place}");
            ill_formed(name, placed, code, offset)
        };
        [
            at("target", target, 2),
            at("a guard's read", guard, 3),
            at("value", assigned, 1 + LITERAL + 1),
        ]
    });
    cases.collect()
}

/// A target's literal of which only so many bytes of the payload are there; all
/// of them, they would be ill-formed but of kind 0, an integer.
fn cut_payloads() -> Vec<Case> {
    let first = "the kind is judged before the payload's bytes are counted";
    let cut = |kind: u8, bytes| {
        let name = format!("kind {kind} and {bytes} bytes of its payload");
        let code = join(&[&[0x21, 0x10, kind], &vec![0xFF; bytes]]);
        match kind {
            0..=3 => ill_formed(name, EARLY, code, 3 + bytes),
            _ => ill_formed(name, first, code, 2),
        }
    };
    let kinds = [0, 1, 2, 3, 4, 255];
    let cases = kinds.map(|kind| (0..PAYLOAD).map(move |bytes| cut(kind, bytes)));
    cases.into_iter().flatten().collect()
}
