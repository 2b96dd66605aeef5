//! Journals of every length around the number of writes, under each rule.

use super::FULL;
use crate::case::{case, Case, Draft};
use sheets::*;

pub fn cases() -> Vec<Case> {
    let mut cases = three_writes();
    cases.extend(two_blocks());
    cases.extend(no_writes());
    cases.extend(sixty_four());
    cases.extend(as_long_as_lent());
    cases
}

/// Slot 0 := 1, 2 and 3. What is refused is the assignment after as many as there
/// are entries.
fn three_writes() -> Vec<Case> {
    let write = |payload| set_integer(0, payload);
    let code = sequence(&[write(1), write(2), write(3)]);
    let width = write(0).len();
    let cases = RULES.into_iter().flat_map(|rule| {
        let lent = |entries: usize| {
            case(format!("3 writes, journal {entries}, rule {rule}"), FULL)
                .block(0, code.clone())
                .rule(rule)
                .journal(entries)
        };
        let full = |entries| lent(entries).refused(18, 0, 2 + entries * width, entries as u32);
        let enough =
            |entries| lent(entries).finishes(3, &[written(3, integer(3)), kept(integer(7))]);
        [full(0), full(1), full(2), enough(3), enough(4)]
    });
    cases.collect()
}

/// Document 01's programme, which writes once in each block.
fn two_blocks() -> Vec<Case> {
    let lent = |entries: usize| {
        case(
            format!("a write in each of 2 blocks, journal {entries}"),
            FULL,
        )
        .programme(example_programme([0, 1]))
        .journal(entries)
    };
    let end = [integer(42), integer(42)].map(once);
    vec![
        lent(0).refused(18, 0, 0, 0),
        lent(1).refused(18, 1, 0, 1),
        lent(2).finishes(2, &end),
        lent(3).finishes(2, &end),
    ]
}

/// Without an assignment no entry is needed.
fn no_writes() -> Vec<Case> {
    let opening = [integer(5), integer(7)].map(kept);
    let lent = |name, entries| case(name, FULL).journal(entries);
    vec![
        lent("no block, journal 0", 0).finishes(0, &opening),
        lent("no block, journal 1", 1).finishes(0, &opening),
        lent("a skip, journal 0", 0)
            .block(0, skip())
            .finishes(0, &opening),
        lent("no slots, journal 0", 0)
            .store(store(&[1], &[]))
            .block(0, skip())
            .finishes(0, &[]),
        // With no slots there is nothing to write to: 18 comes before that.
        lent("no slots and an assignment, journal 0", 0)
            .store(store(&[1], &[]))
            .block(0, assign(literal(integer(0)), literal(integer(0))))
            .refused(18, 0, 0, 0),
        lent("no slots and an assignment, journal 1", 1)
            .store(store(&[1], &[]))
            .block(0, assign(literal(integer(0)), literal(integer(0))))
            .refused(13, 0, 0, 0),
    ]
}

/// A write in each of 64 blocks.
fn sixty_four() -> Vec<Case> {
    let blocks = vec![(0, set_integer(0, 9)); 64];
    let lent = |entries: usize| {
        case(format!("64 blocks, journal {entries}"), FULL)
            .blocks(&blocks)
            .rule(3)
            .journal(entries)
    };
    let end = [written(64, integer(9)), kept(integer(7))];
    vec![
        lent(31).refused(18, 31, 0, 31),
        lent(63).refused(18, 63, 0, 63),
        lent(64).finishes(64, &end),
        lent(65).finishes(64, &end),
    ]
}

/// Slot 0 counts up to a limit: a guard and a write in each round.
pub(super) fn rounds(name: String, limit: i64) -> Draft {
    let add = set(0, sum(slot(0), literal(integer(1))));
    case(name, FULL)
        .store(store(&[1], &[(0, integer(0))]))
        .block(
            0,
            while_do(less_than(slot(0), literal(integer(limit))), add),
        )
        .rule(3)
        .budget(10_000)
}

/// Where the write stands there: after 24 and the guard.
pub(super) fn in_round() -> usize {
    1 + less_than(slot(0), literal(integer(0))).len()
}

/// As many writes as the printing program lends entries, and one more.
fn as_long_as_lent() -> Vec<Case> {
    let lent = |limit: i64, entries: usize| {
        rounds(format!("{limit} rounds, journal {entries}"), limit).journal(entries)
    };
    vec![
        lent(512, 512).finishes(1025, &[written(512, integer(512))]),
        lent(512, 511).refused(18, 0, in_round(), 1023),
        lent(513, 512).refused(18, 0, in_round(), 1025),
        lent(255, 256).finishes(511, &[written(255, integer(255))]),
        lent(256, 256).finishes(513, &[written(256, integer(256))]),
        lent(257, 256).refused(18, 0, in_round(), 513),
    ]
}
