//! Where 18 is placed: "block and offset of the command's first byte in its
//! block", and the steps done before it.

use super::lengths::{in_round, rounds};
use super::FULL;
use crate::case::{case, Case};
use sheets::*;

pub fn cases() -> Vec<Case> {
    let mut cases = blocks();
    cases.extend(loops());
    cases.extend(two_in_a_body());
    cases.push(deep());
    cases
}

/// Three blocks of which the second is idle: a journal filled in the first is full
/// in the third.
fn blocks() -> Vec<Case> {
    let write = || set_integer(0, 9);
    let first = sequence(&[write(), write()]);
    let third = sequence(&[skip(), skip(), write(), write()]);
    let cases = RULES.into_iter().flat_map(|rule| {
        let lent = |entries: usize| {
            case(
                format!("the third block, journal {entries}, rule {rule}"),
                FULL,
            )
            .blocks(&[(0, first.clone()), (1, skip()), (0, third.clone())])
            .rule(rule)
            .journal(entries)
        };
        let place = 2 + 2;
        [
            lent(1).refused(18, 0, 2 + write().len(), 1),
            lent(2).refused(18, 2, place, 2),
            lent(3).refused(18, 2, place + write().len(), 3),
            lent(4).finishes(4, &[written(4, integer(9)), kept(integer(7))]),
        ]
    });
    cases.collect()
}

/// In the round after as many as there are entries: each has a guard and a write.
fn loops() -> Vec<Case> {
    let cases = RULES.into_iter().flat_map(|rule| {
        let lent = |entries: usize| {
            let name = format!("3 rounds, journal {entries}, rule {rule}");
            rounds(name, 3).rule(rule).journal(entries)
        };
        [
            lent(0).refused(18, 0, in_round(), 1),
            lent(1).refused(18, 0, in_round(), 3),
            lent(2).refused(18, 0, in_round(), 5),
            lent(3).finishes(7, &[written(3, integer(3))]),
            lent(3).variant("budget 6").budget(6).refused(17, 0, 0, 6),
        ]
    });
    cases.collect()
}

/// Two writes in a body of two rounds: which of them is refused depends on the
/// journal's length.
fn two_in_a_body() -> Vec<Case> {
    let flags = store(&[1], &[(0, truth(true)), (0, truth(true))]);
    let first = set(0, slot(1));
    let body = sequence(&[first.clone(), set(1, literal(truth(false)))]);
    let place = 1 + slot(0).len() + 2;
    let second = place + first.len();
    let lent = |entries: usize| {
        case(format!("2 writes in a body, journal {entries}"), FULL)
            .store(flags.clone())
            .block(0, while_do(slot(0), body.clone()))
            .rule(3)
            .journal(entries)
    };
    vec![
        lent(0).refused(18, 0, place, 1),
        lent(1).refused(18, 0, second, 2),
        lent(2).refused(18, 0, place, 4),
        lent(3).refused(18, 0, second, 5),
        lent(4).finishes(7, &[written(2, truth(false)), written(2, truth(false))]),
    ]
}

/// 32 deep, in the second block, after a write in the first.
fn deep() -> Case {
    let if_true = |inner| if_else(literal(truth(true)), inner, skip());
    let code = (1..32).fold(set_integer(0, 9), |inner, _| if_true(inner));
    case("32 deep in the second block, journal 1", FULL)
        .blocks(&[(0, set_integer(0, 8)), (0, code)])
        .rule(3)
        .journal(1)
        .refused(18, 1, 31 * (1 + LITERAL), 32)
}
