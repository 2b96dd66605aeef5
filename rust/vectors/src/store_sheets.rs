//! What is wrong with a store sheet (1 to 5), and what just is not.

use crate::case::{case, Case, Draft};
use sheets::*;

pub fn cases() -> Vec<Case> {
    let mut cases = lengths();
    cases.extend(sizes());
    cases.extend(good_tables());
    cases.extend(bad_orders());
    cases.extend(bad_lattices());
    cases.extend(owners());
    cases.extend(good_values());
    cases.extend(bad_values());
    cases
}

fn without_last(sheet: Bytes) -> Bytes {
    sheet[..sheet.len() - 1].to_vec()
}

fn lengths() -> Vec<Case> {
    let sheet = |name, sheet| {
        case(
            name,
            "1 its length isn't what its sizes say, or it can't hold them",
        )
        .store(sheet)
    };
    let cut = |name, length| sheet(name, example_store()[..length].to_vec());
    vec![
        sheet("store of no bytes", vec![]).refused_early(1),
        // Sizes that would be past their limits, but aren't all there.
        sheet("store of one byte", vec![33]).refused_early(1),
        sheet("store of two bytes", vec![33, 0xFF]).refused_early(1),
        cut("store of its sizes", 3).refused_early(1),
        cut("store cut in its masks", 3 + 7).refused_early(1),
        cut("store cut after its masks", 3 + 8).refused_early(1),
        cut("store cut in its owners", 3 + 8 + 1).refused_early(1),
        cut("store cut after its owners", 3 + 8 + 2).refused_early(1),
        cut("store cut in its values", 3 + 8 + 2 + VALUE).refused_early(1),
        sheet("store one byte short", without_last(example_store())).refused_early(1),
        sheet("store one byte long", join(&[&example_store(), &[0]])).refused_early(1),
        // The order table has no meet.
        sheet(
            "store length before order",
            join(&[&store(&[1, 2], &[]), &[0]]),
        )
        .refused_early(1),
    ]
}

/// n is 1 to 32, m is 0 to 256; both are judged before the total length.
fn sizes() -> Vec<Case> {
    let sheet = |name, sheet| case(name, "2 n or m outside its limit").store(sheet);
    let zeros = vec![kept(integer(0)); 256];
    let slots = |count| vec![(0, integer(0)); count];
    vec![
        sheet("n 0", store(&[], &[])).refused_early(2),
        sheet("n 32", store(&chain(32), &[(31, integer(5))])).finishes(0, &[kept(integer(5))]),
        sheet("n 33", store(&[0; 33], &[])).refused_early(2),
        sheet("n 0, no more bytes", vec![0, 0, 0]).refused_early(2),
        sheet("n 33, no more bytes", vec![33, 0, 0]).refused_early(2),
        sheet("n 255, no more bytes", vec![255, 0, 0]).refused_early(2),
        sheet("n 255 and m 65535", vec![255, 0xFF, 0xFF, 0, 0])
            .output(0)
            .refused_early(2),
        sheet("m 256", store(&[1], &slots(256))).finishes(0, &zeros),
        sheet("m 257, no more bytes", vec![1, 0x01, 0x01]).refused_early(2),
        sheet("m 256, no more bytes", vec![1, 0x00, 0x01]).refused_early(1),
    ]
}

fn good_tables() -> Vec<Case> {
    let good = |name, masks: &[u32]| {
        case(
            name,
            "The table is good when no bit n or higher is set, each i stands below itself",
        )
        .store(store(masks, &[]))
        .finishes(0, &[])
    };
    vec![
        good("order: the top has number 0", &[0b11, 0b10]),
        good("order: a diamond", &DIAMOND),
        good(
            "order: five, with a chain",
            &[0b10001, 0b10011, 0b10111, 0b11111, 0b10000],
        ),
    ]
}

/// One table for each thing that a good table has, lacking that: first what
/// makes it an order, then meets and a top.
fn bad_orders() -> Vec<Case> {
    let bit = "no bit n or higher is set";
    let itself = "each i stands below itself";
    let other = "no two different principals stand below each other";
    let handed_on = "what stands below j stands below everything above j";
    // 0 below 1 below 2, yet 0 not below 2; 3 is the top, 4 the bottom.
    let broken = [0b10001, 0b10011, 0b10110, 0b11111, 0b10000];
    vec![
        bad_table("order: bit n is set", bit, &[0b11]),
        bad_table("order: bit n is set above", bit, &[0b001, 0b111]),
        bad_table("order: bit 31 is set", bit, &[0x8000_0001]),
        bad_table("order: 0 not below itself", itself, &[0]),
        bad_table("order: 1 not below itself", itself, &[0b001, 0b001, 0b111]),
        bad_table("order: two below each other", other, &[0b11, 0b11]),
        bad_table("order: below is not handed on", handed_on, &broken),
    ]
}

fn bad_lattices() -> Vec<Case> {
    let meet = "any two have a greatest common lower principal (their meet)";
    let top = "one principal, the top, is above all";
    // 3 and 4 both stand above 1 and 2, which are unrelated.
    let two_lower = [0b000001, 0b000011, 0b000101, 0b001111, 0b010111, 0b111111];
    vec![
        bad_table("order: no common lower", meet, &[0b001, 0b010, 0b111]),
        bad_table("order: no greatest common lower", meet, &two_lower),
        bad_table("order: no top", top, &[0b001, 0b011, 0b101]),
        case("order before owners", "3; then slot by slot 4 before 5")
            .store(store(&[1, 2], &[(9, integer(0))]))
            .refused_early(3),
    ]
}

fn bad_table(name: &str, says: &'static str, masks: &[u32]) -> Case {
    case(name, says).store(store(masks, &[])).refused_early(3)
}

fn owners() -> Vec<Case> {
    let bad = value(4, 0);
    let pair = |name, says, slots: &[(u8, Bytes)]| case(name, says).store(store(&PAIR, slots));
    let below = "4 owner not below n";
    let order = "then slot by slot 4 before 5";
    vec![
        pair("owner n - 1", below, &[(1, integer(0))]).finishes(0, &[kept(integer(0))]),
        pair("owner n", below, &[(2, integer(0))]).refused_early(4),
        pair("owner 80", below, &[(0, integer(0)), (0x80, integer(0))]).refused_early(4),
        pair("owner FF", below, &[(0, integer(0)), (0xFF, integer(0))]).refused_early(4),
        pair("owner before value", order, &[(2, bad.clone())]).refused_early(4),
        pair(
            "slot 0's owner before slot 1's value",
            order,
            &[(2, integer(0)), (0, bad.clone())],
        )
        .refused_early(4),
        pair(
            "slot 0's value before slot 1's owner",
            order,
            &[(0, bad), (2, integer(0))],
        )
        .refused_early(5),
    ]
}

/// One slot alone, so a view can only be of slot 0.
fn one_slot(name: &str, says: &'static str, value: Bytes) -> Draft {
    case(name, says).store(store(&[1], &[(0, value)]))
}

fn good_values() -> Vec<Case> {
    let good = |name: &str, value: Bytes| {
        one_slot(
            name,
            "A payload becomes 8 bytes and a value 9, in sheets, code and output.",
            value.clone(),
        )
        .finishes(0, &[kept(value)])
    };
    let last_of = |name, count: usize, view: Bytes| {
        let mut values = vec![integer(0); count];
        values[count / 2] = view;
        let slots: Vec<(u8, Bytes)> = values.iter().map(|value| (0, value.clone())).collect();
        let end: Vec<EndSlot> = values.into_iter().map(kept).collect();
        case(name, "payload a slot number below m")
            .store(store(&[1], &slots))
            .finishes(0, &end)
    };
    vec![
        good("value -1", integer(-1)),
        good("value least integer", integer(LEAST)),
        good("value greatest integer", integer(GREATEST)),
        good("value false", truth(false)),
        good("value true", truth(true)),
        good("value read view", read_view(0)),
        good("value write view", write_view(0)),
        last_of("value read view of slot 5 of 6", 6, read_view(5)),
        last_of("value write view of slot 5 of 6", 6, write_view(5)),
        last_of("value view of slot 255", 256, write_view(255)),
    ]
}

fn bad_values() -> Vec<Case> {
    let bad = |name: &str, value| one_slot(name, "5 value ill-formed", value).refused_early(5);
    let past_last = |name, count: i64| {
        let mut slots = vec![(0, integer(0)); count as usize];
        slots[1].1 = write_view(count);
        case(name, "payload a slot number below m")
            .store(store(&[1], &slots))
            .refused_early(5)
    };
    vec![
        bad("value kind 4", value(4, 0)),
        bad("value kind 255", value(255, 0)),
        bad("value truth 2", value(1, 2)),
        bad("value truth 1 in the second byte", value(1, 0x100)),
        bad("value truth -1", value(1, -1)),
        bad("value read view of slot m", read_view(1)),
        bad("value write view of slot m", write_view(1)),
        bad("value view of slot 100 hexadecimal", read_view(0x100)),
        bad("value read view of slot -1", read_view(-1)),
        bad("value write view of slot -1", write_view(-1)),
        past_last("value view of slot 6 of 6", 6),
        past_last("value view of slot 256 of 256", 256),
    ]
}
