//! A guard needs no entry: with a journal of no entries, and with a full one.

use super::FULL;
use crate::case::{case, Case, Draft};
use sheets::*;

pub fn cases() -> Vec<Case> {
    let mut cases = alone();
    cases.extend(parts());
    cases.extend(after_a_write());
    cases.extend(refused_guards());
    cases
}

fn yes() -> Bytes {
    literal(truth(true))
}

fn no() -> Bytes {
    literal(truth(false))
}

/// A block of region 0 over document 01's store, without entries.
fn without(name: &str, code: Bytes, rule: u32) -> Draft {
    case(format!("{name}, journal 0, rule {rule}"), FULL)
        .block(0, code)
        .rule(rule)
        .journal(0)
}

/// Guards and skips, and assignments that no run comes to.
fn alone() -> Vec<Case> {
    let opening = [integer(5), integer(7)].map(kept);
    let write = || set_integer(0, 9);
    let passing = [
        ("an if of skips", if_else(yes(), skip(), skip()), 1),
        ("a while not run", while_do(no(), write()), 1),
        ("a then-part left out", if_else(no(), write(), skip()), 1),
        ("an else-part left out", if_else(yes(), skip(), write()), 1),
        (
            "ifs inside each other",
            if_else(yes(), if_else(no(), write(), skip()), write()),
            2,
        ),
    ];
    let passing = passing.into_iter().flat_map(|(name, code, steps)| {
        RULES.map(|rule| without(name, code.clone(), rule).finishes(steps, &opening))
    });
    let forever = || while_do(yes(), skip());
    let spent = RULES.map(|rule| {
        without("a while of skips", forever(), rule)
            .budget(3)
            .refused(17, 0, 0, 3)
    });
    passing.chain(spent).collect()
}

/// The assignment in the part that runs is refused, after the guard's step.
fn parts() -> Vec<Case> {
    let write = || set_integer(0, 9);
    let part = 1 + LITERAL;
    let codes = [
        ("a then-part", if_else(yes(), write(), skip()), part),
        ("an else-part", if_else(no(), skip(), write()), part + 1),
        ("a body", while_do(yes(), write()), part),
    ];
    let cases = codes.into_iter().flat_map(|(name, code, place)| {
        RULES.map(|rule| without(name, code.clone(), rule).refused(18, 0, place, 1))
    });
    cases.collect()
}

/// A write fills the only entry; what follows are guards.
fn after_a_write() -> Vec<Case> {
    let end = [once(integer(9)), kept(integer(7))];
    let write = || set_integer(0, 9);
    let guards = [
        ("an if", if_else(yes(), skip(), skip()), 2),
        ("a while", while_do(no(), write()), 2),
        (
            "a while that judges slot 0",
            while_do(less_than(slot(0), literal(integer(9))), write()),
            2,
        ),
    ];
    let cases = guards.into_iter().map(|(name, guard, steps)| {
        case(format!("a write, then {name}, journal 1"), FULL)
            .block(0, sequence(&[write(), guard]))
            .rule(3)
            .journal(1)
            .finishes(steps, &end)
    });
    cases.collect()
}

/// A guard is judged as ever: by 17, 15 and 13.
fn refused_guards() -> Vec<Case> {
    let wrong = || while_do(literal(integer(1)), skip());
    let view = || if_else(literal(write_view(1)), skip(), skip());
    let after = |code| sequence(&[set_integer(0, 9), code]);
    let place = 2 + set_integer(0, 9).len();
    let kinds = RULES.map(|rule| without("13 for a guard", wrong(), rule).refused(13, 0, 0, 0));
    let more = [
        without("15 for a guard", view(), 1).refused(15, 0, 0, 0),
        without("17 for a guard", wrong(), 3)
            .budget(0)
            .refused(17, 0, 0, 0),
        case("a write, then 13 for a guard, journal 1", FULL)
            .block(0, after(wrong()))
            .journal(1)
            .refused(13, 0, place, 1),
        case("a write, then 15 for a guard, journal 1", FULL)
            .block(0, after(view()))
            .rule(1)
            .journal(1)
            .refused(15, 0, place, 1),
        case("a write, then 17 for a guard, journal 1", FULL)
            .block(0, after(wrong()))
            .budget(1)
            .journal(1)
            .refused(17, 0, place, 1),
    ];
    kinds.into_iter().chain(more).collect()
}
