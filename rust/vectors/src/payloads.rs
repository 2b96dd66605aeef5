//! Payloads of eight bytes (document 02, N3): integers that need them, views and
//! truth values whose upper bytes are set, literals that end early, and the
//! layout with values of five bytes, which is refused.

use crate::case::{case, Case};
use sheets::*;

pub fn cases() -> Vec<Case> {
    let mut cases = whole_integers();
    cases.extend(lowest());
    cases.extend(bad_in_sheets());
    cases.extend(bad_in_code());
    cases.extend(cut_literals());
    cases.extend(values_of_five_bytes());
    cases.push(all_slots());
    cases
}

const WIDTHS: &str = "A payload becomes 8 bytes and a value 9, in sheets, code and output.";

/// Slot 0 keeps what the sheet says, slot 1 gets a literal, slot 2 a copy of
/// slot 0.
fn whole_integers() -> Vec<Case> {
    let signed = "Integers are signed 64-bit.";
    let integers = [
        (LEAST, signed),
        (GREATEST, signed),
        (-1, signed),
        // What four bytes don't hold; the last one's lower half is that of -1.
        (1 << 31, signed),
        (-(1 << 31) - 1, signed),
        (1 << 32, signed),
        ((1 << 32) - 1, signed),
        // The ratio 1.176.
        (
            1_176_000_000_000,
            "Ratios scaled by 10 to the 12th don't fit.",
        ),
    ];
    let case_of = |(payload, says)| {
        let slots = [(0, integer(payload)), (0, integer(7)), (0, integer(8))];
        let [sheet_s, literal_s, copy] = [payload; 3].map(integer);
        let end = [kept(sheet_s), once(literal_s), once(copy)];
        case(format!("kept {payload}"), says)
            .store(store(&[1], &slots))
            .block(0, sequence(&[set_integer(1, payload), set(2, slot(0))]))
            .finishes(2, &end)
    };
    integers.map(case_of).into()
}

/// 0 and 1 are good payloads of each kind, in a sheet of two slots and in code:
/// of what follows, only the bytes above are bad.
fn lowest() -> Vec<Case> {
    let of_kind = |kind: u8| {
        [0, 1].map(|payload| {
            let good = value(kind, payload);
            case(format!("kind {kind}, payload {payload}"), WIDTHS)
                .store(store(&[1], &[(0, good.clone()), (0, integer(7))]))
                .block(0, set(1, literal(good.clone())))
                .finishes(1, &[kept(good.clone()), once(good)])
        })
    };
    (0..4).flat_map(of_kind).collect()
}

/// Payloads that would be good without a byte of their upper half. With one slot
/// a view can only be of slot 0.
fn bad_in_sheets() -> Vec<Case> {
    let bad = |name, says, value| {
        case(name, says)
            .store(store(&[1], &[(0, value)]))
            .refused_early(5)
    };
    let view = |name, value| bad(name, "payload a slot number below m", value);
    let flag = |name, payload| bad(name, "payload 0 false, 1 true", value(1, payload));
    vec![
        view(
            "value read view of slot 2 to the 32nd",
            read_view(UPPER_HALF),
        ),
        view(
            "value write view of slot 2 to the 32nd",
            write_view(UPPER_HALF),
        ),
        view("value read view, last byte 1", read_view(LAST_BYTE)),
        view("value write view, last byte 1", write_view(LAST_BYTE)),
        view("value write view, last bit set", write_view(LEAST)),
        flag("value truth 2 to the 32nd", UPPER_HALF),
        flag("value truth 2 to the 32nd and 1", UPPER_HALF + 1),
        flag("value truth, last byte 1", LAST_BYTE),
        flag("value truth 1, last byte 1", LAST_BYTE + 1),
    ]
}

/// The same as literals. Byte 2 is the kind of a target or a guard, byte 3 that
/// of a guard's read; that of a value follows 21, a target of ten bytes and 10.
fn bad_in_code() -> Vec<Case> {
    let bad = |name, code, kind_byte| {
        case(name, "a bad literal at its kind byte")
            .block(0, code)
            .refused(9, 0, kind_byte, 0)
    };
    let target = |name, payload| {
        let to = literal(write_view(payload));
        bad(name, assign(to, literal(integer(1))), 2)
    };
    let guard = |name, payload| {
        let flag = literal(value(1, payload));
        bad(name, while_do(flag, skip()), 2)
    };
    let read_guard = |name, payload| bad(name, while_do(slot(payload), skip()), 3);
    let held = |name, value| bad(name, set(0, literal(value)), 12);
    vec![
        target("target, write view of slot 2 to the 32nd", UPPER_HALF),
        target("target, write view, last byte 1", LAST_BYTE),
        guard("guard, truth 2 to the 32nd and 1", UPPER_HALF + 1),
        guard("guard, truth, last byte 1", LAST_BYTE),
        read_guard("guard, read view of slot 2 to the 32nd", UPPER_HALF),
        read_guard("guard, read view, last byte 1", LAST_BYTE),
        held(
            "literal read view of slot 2 to the 32nd",
            read_view(UPPER_HALF),
        ),
        held("literal write view, last byte 1", write_view(LAST_BYTE)),
        held("literal truth 2 to the 32nd", value(1, UPPER_HALF)),
    ]
}

/// A literal's kind is byte 2, its payload bytes 3 to 10.
fn cut_literals() -> Vec<Case> {
    let early = "code that ends early (offset: the block's length)";
    let first = "the kind is judged before the payload's bytes are counted";
    let cut = |name, says, code, offset| {
        case(name, says)
            .block(0, hex(code))
            .refused(9, 0, offset, 0)
    };
    vec![
        cut(
            "code ends after a payload's 4th byte",
            early,
            "21 10 03 00000000",
            7,
        ),
        cut(
            "code ends after a payload's 7th byte",
            early,
            "21 10 03 00000000000000",
            10,
        ),
        cut(
            "code ends after a payload's 8th byte",
            early,
            "21 10 03 0000000000000000",
            11,
        ),
        cut(
            "truth 2, its 8th byte not there",
            early,
            "24 10 01 02000000000000",
            10,
        ),
        cut(
            "kind 4, its payload's 8th byte not there",
            first,
            "24 10 04 00000000000000",
            2,
        ),
    ]
}

/// Document 01's example with values as they were laid out before. In its code
/// the first literal's payload goes on into the next literal.
fn values_of_five_bytes() -> Vec<Case> {
    let old_store = "02 0200 01000000 03000000 00 01 0005000000 0007000000";
    let old_programme = "02 1B00 00 01 0D00 0E00 00 00 \
        21 10 0300000000 10 002A000000 \
        21 10 0301000000 11 10 0200000000";
    vec![
        case("store with values of 5 bytes", WIDTHS)
            .store(hex(old_store))
            .programme(example_programme([0, 1]))
            .refused_early(1),
        case("programme with values of 5 bytes", WIDTHS)
            .programme(hex(old_programme))
            .refused(9, 0, 2, 0),
        case("while with a guard of 5 bytes", WIDTHS)
            .block(0, hex("24 10 0100000000 20"))
            .refused(9, 0, 8, 0),
        case("output of 5 bytes a slot", WIDTHS)
            .programme(example_programme([0, 1]))
            .output(2 * 5)
            .refused_early(12),
    ]
}

/// Each byte of a slot's payload is the slot's number; slot 0 gets a copy of slot
/// 255.
fn all_slots() -> Case {
    let value = |i| join(&[&[0], &[i; 8]]);
    let slots: Vec<(u8, Bytes)> = (0..=255).map(|i| (0, value(i))).collect();
    let mut end: Vec<EndSlot> = (0..=255).map(|i| kept(value(i))).collect();
    end[0] = once(value(255));
    case("256 slots, each of its own bytes", WIDTHS)
        .store(store(&[1], &slots))
        .block(0, set(0, slot(255)))
        .rule(3)
        .finishes(1, &end)
}
