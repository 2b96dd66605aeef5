//! Runs whose entries are worked by hand. The program doesn't print entries; the
//! tests hold the second runner to these.

use crate::case::{case, Case, Entry};
use sheets::*;

pub fn cases() -> Vec<Case> {
    vec![
        example(),
        who_wrote_the_oldest_row(),
        rounds(),
        parts(),
        through_views(),
        unchanged(),
        none(),
    ]
}

const FILLS: &str = "each assignment fills the next: block, offset, slot, old value, new value";

fn entry(block: usize, offset: usize, slot: usize, old: Bytes, new: Bytes) -> Entry {
    Entry {
        block,
        offset,
        slot,
        old,
        new,
    }
}

/// Document 01's programme: slot 0 := 42, then slot 1 := slot 0.
fn example() -> Case {
    case("entries of two blocks", FILLS)
        .programme(example_programme([0, 1]))
        .finishes(2, &[integer(42), integer(42)].map(once))
        .fills(vec![
            entry(0, 0, 0, integer(5), integer(42)),
            entry(1, 0, 1, integer(7), integer(42)),
        ])
}

/// Slots: a customer's measurement, the laboratory's offset, the oldest row. The
/// customer measures twice; the laboratory, endorsed down to the customer, corrects
/// what it finds.
fn who_wrote_the_oldest_row() -> Case {
    let slots = [(0, integer(0)), (1, integer(17)), (1, integer(-1))];
    let measured = sequence(&[set_integer(0, 1_200), set_integer(0, 1_193)]);
    let corrected = sequence(&[skip(), set(2, difference(slot(0), slot(1)))]);
    let end = [
        written(2, integer(1_193)),
        kept(integer(17)),
        once(integer(1_176)),
    ];
    case("entries of a correction", FILLS)
        .store(store(&PAIR, &slots))
        .floored_blocks(&[(0, 0xFF, measured), (0x81, 0, corrected)])
        .rule(3)
        .journal(3)
        .finishes(3, &end)
        .fills(vec![
            entry(0, 2, 0, integer(0), integer(1_200)),
            entry(0, 2 + 21, 0, integer(1_200), integer(1_193)),
            entry(1, 3, 2, integer(-1), integer(1_176)),
        ])
}

/// Slot 1 counts up to 2 and slot 0 holds whether it is there. 24, a guard of
/// eleven bytes, 22 and a count stand before the first assignment, which has 33.
fn rounds() -> Case {
    let up = set(1, sum(slot(1), literal(integer(1))));
    let flag = set(0, less_than(slot(1), literal(integer(2))));
    let slots = [(0, truth(true)), (0, integer(0))];
    case("entries of two rounds", FILLS)
        .store(store(&[1], &slots))
        .block(0, while_do(slot(0), sequence(&[up, flag])))
        .rule(3)
        .finishes(7, &[written(2, truth(false)), written(2, integer(2))])
        .fills(vec![
            entry(0, 14, 1, integer(0), integer(1)),
            entry(0, 47, 0, truth(true), truth(true)),
            entry(0, 14, 1, integer(1), integer(2)),
            entry(0, 47, 0, truth(true), truth(false)),
        ])
}

/// A skip, an if and a while stand in a sequence before the last assignment; each
/// of the parts that run has one. Slot 0 goes down to 0, slot 1 is the flag, slot 2
/// holds what slot 0 did.
fn parts() -> Case {
    let first = if_else(slot(1), set(2, slot(0)), skip());
    let down = set(0, difference(slot(0), literal(integer(1))));
    let rounds = while_do(less_than(literal(integer(0)), slot(0)), down);
    let code = sequence(&[skip(), first, rounds, set(1, literal(truth(false)))]);
    let slots = [(0, integer(2)), (0, truth(true)), (0, write_view(2))];
    // 22, a count and a skip; then an if of 35 bytes, 12 of them before its part,
    // and a while of 56, 23 of them before its body.
    case("entries of parts in a sequence", FILLS)
        .store(store(&[1], &slots))
        .blocks(&[(0, code), (0, set(2, slot(2)))])
        .rule(3)
        .journal(5)
        .finishes(
            9,
            &[
                written(2, integer(0)),
                once(truth(false)),
                written(2, integer(2)),
            ],
        )
        .fills(vec![
            entry(0, 3 + 12, 2, write_view(2), integer(2)),
            entry(0, 3 + 35 + 23, 0, integer(2), integer(1)),
            entry(0, 3 + 35 + 23, 0, integer(1), integer(0)),
            entry(0, 3 + 35 + 56, 1, truth(true), truth(false)),
            entry(1, 0, 2, integer(2), integer(2)),
        ])
}

/// The entry's slot is the one that is written. Slot 0 names slot 1, then itself.
fn through_views() -> Case {
    let through = |value| assign(slot(0), literal(value));
    let code = sequence(&[
        through(read_view(0)),
        set(0, literal(write_view(0))),
        through(integer(LEAST)),
    ]);
    // The first has 22 bytes, the second 21.
    case("entries of writes through views", FILLS)
        .store(store(&[1], &[(0, write_view(1)), (0, truth(false))]))
        .blocks(&[(0, skip()), (0, code)])
        .rule(0)
        .finishes(3, &[written(2, integer(LEAST)), once(read_view(0))])
        .fills(vec![
            entry(1, 2, 1, truth(false), read_view(0)),
            entry(1, 24, 0, write_view(1), write_view(0)),
            entry(1, 45, 0, write_view(0), integer(LEAST)),
        ])
}

/// Old and new value are the same, and the entry is there.
fn unchanged() -> Case {
    let code = if_else(
        literal(truth(false)),
        skip(),
        sequence(&[set(0, slot(0)), set_integer(0, 5)]),
    );
    // 23 and a guard of ten bytes, 20, 22 and a count; the first has 22 bytes.
    case("entries of writes that change nothing", FILLS)
        .block(0, code)
        .rule(1)
        .finishes(3, &[written(2, integer(5)), kept(integer(7))])
        .fills(vec![
            entry(0, 14, 0, integer(5), integer(5)),
            entry(0, 36, 0, integer(5), integer(5)),
        ])
}

/// Guards fill none.
fn none() -> Case {
    case("entries of no writes", FILLS)
        .block(0, while_do(less_than(slot(1), slot(0)), set_integer(0, 9)))
        .rule(3)
        .finishes(1, &[integer(5), integer(7)].map(kept))
        .fills(vec![])
}
