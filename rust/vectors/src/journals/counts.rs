//! Counts: of one slot and of several, of writes that change nothing, and with
//! more than one byte.

use super::COUNTED;
use crate::case::{case, Case};
use sheets::*;

pub fn cases() -> Vec<Case> {
    let mut cases = one_slot();
    cases.extend(several_slots());
    cases.extend(without_a_change());
    cases.extend(through_views());
    cases.extend(in_parts());
    cases.extend(every_slot());
    cases
}

/// So many writes of 9 to slot 0, in blocks of up to 255.
fn blocks_of(writes: usize) -> Vec<(u8, Bytes)> {
    let write = vec![set_integer(0, 9); writes];
    let block = |part: &[Bytes]| match part {
        [only] => (0, only.clone()),
        _ => (0, sequence(part)),
    };
    write.chunks(255).map(block).collect()
}

/// The count's lowest byte is first, and goes on into the next.
fn one_slot() -> Vec<Case> {
    let case_of = |writes: usize| {
        let count = writes as u32;
        case(format!("slot 0 is written {writes} times"), COUNTED)
            .blocks(&blocks_of(writes))
            .rule(3)
            .finishes(count, &[written(count, integer(9)), kept(integer(7))])
    };
    [1, 2, 3, 127, 128, 255, 256, 257, 511, 512]
        .map(case_of)
        .into()
}

/// Slot i is written i times, slots 0 and 5 not at all: upwards, downwards, and in
/// turn.
fn several_slots() -> Vec<Case> {
    let slots = vec![(0, integer(0)); 6];
    let ordered: Vec<i64> = (1..5).flat_map(|slot| vec![slot; slot as usize]).collect();
    let downwards: Vec<i64> = ordered.iter().rev().copied().collect();
    let in_turn = vec![4, 3, 2, 1, 4, 3, 2, 4, 3, 4];
    let orders = [("up", ordered), ("down", downwards), ("in turn", in_turn)];
    let end: Vec<EndSlot> = [0, 1, 2, 3, 4, 0]
        .map(|count| written(count, integer(if count == 0 { 0 } else { 9 })))
        .into();
    let cases = orders.into_iter().flat_map(|(name, order)| {
        let writes: Vec<Bytes> = order.iter().map(|slot| set_integer(*slot, 9)).collect();
        let code = sequence(&writes);
        RULES.map(|rule| {
            case(format!("slots are written {name}, rule {rule}"), COUNTED)
                .store(store(&[1], &slots))
                .block(0, code.clone())
                .rule(rule)
                .finishes(10, &end)
        })
    });
    cases.collect()
}

/// A slot to itself, and the value that is there.
fn without_a_change() -> Vec<Case> {
    let itself = || set(0, slot(0));
    let same = || set_integer(0, 5);
    let codes = [
        ("a slot to itself", itself(), 1),
        ("the value that is there", same(), 1),
        ("both", sequence(&[itself(), same(), itself()]), 3),
    ];
    let cases = codes.into_iter().flat_map(|(name, code, writes)| {
        RULES.map(|rule| {
            case(format!("{name} counts, rule {rule}"), COUNTED)
                .block(0, code.clone())
                .rule(rule)
                .finishes(writes, &[written(writes, integer(5)), kept(integer(7))])
        })
    });
    cases.collect()
}

/// The slot that is written counts, and not the one that the view is read from,
/// nor one that a value is read from. A view may be of the slot that holds it.
fn through_views() -> Vec<Case> {
    let slots = [write_view(2), read_view(3), integer(7), integer(8)];
    let block = |name: &str, code| {
        case(name, COUNTED)
            .store(store(&[1], &slots.clone().map(|value| (0, value))))
            .block(0, code)
            .rule(3)
    };
    let with = |writes: &[(usize, EndSlot)]| {
        let mut end = slots.clone().map(kept);
        for (slot, record) in writes {
            end[*slot] = record.clone();
        }
        end
    };
    let through = || assign(slot(0), literal(integer(9)));
    let shown = set(3, reads(2, 1));
    let own = sequence(&[set(0, literal(write_view(0))), through()]);
    vec![
        block("a slot written through a view", through())
            .finishes(1, &with(&[(2, once(integer(9)))])),
        block(
            "a slot written through a view and then by its own",
            sequence(&[through(), set_integer(2, 1)]),
        )
        .finishes(2, &with(&[(2, written(2, integer(1)))])),
        block("a slot written by what it shows", shown)
            .finishes(1, &with(&[(3, once(integer(8)))])),
        block("a view of the slot that holds it", own)
            .finishes(2, &with(&[(0, written(2, integer(9)))])),
    ]
}

/// What runs counts, and what doesn't does not.
fn in_parts() -> Vec<Case> {
    let choice = |holds| if_else(literal(truth(holds)), set_integer(0, 1), set_integer(1, 2));
    let up = while_do(
        less_than(slot(0), literal(integer(8))),
        sequence(&[set(0, sum(slot(0), literal(integer(1)))), set(1, slot(0))]),
    );
    let block = |name: &str, code| case(name, COUNTED).block(1, code);
    vec![
        block("the then-part counts", choice(true))
            .finishes(2, &[once(integer(1)), kept(integer(7))]),
        block("the else-part counts", choice(false))
            .finishes(2, &[kept(integer(5)), once(integer(2))]),
        // From 5 to 8 in three rounds of a guard and two writes.
        block("each round counts", up)
            .finishes(10, &[written(3, integer(8)), written(3, integer(8))]),
        case("each block counts", COUNTED)
            .programme(programme(&vec![(1, choice(true)); 3]))
            .finishes(6, &[written(3, integer(1)), kept(integer(7))]),
    ]
}

/// All 256 slots, each once, in two blocks.
fn every_slot() -> Vec<Case> {
    let slots = vec![(0, integer(-1)); 256];
    let half = |from: i64| {
        let writes: Vec<Bytes> = (from..from + 128).map(|i| set_integer(i, i)).collect();
        (0, sequence(&writes))
    };
    let lent = |entries: usize| {
        case(format!("256 slots are written, journal {entries}"), COUNTED)
            .store(store(&[1], &slots))
            .blocks(&[half(0), half(128)])
            .rule(3)
            .journal(entries)
    };
    let end: Vec<EndSlot> = (0..256).map(|i| once(integer(i))).collect();
    let last = 2 + 127 * set_integer(0, 0).len();
    vec![
        lent(255).refused(18, 1, last, 255),
        lent(256).finishes(256, &end),
    ]
}
