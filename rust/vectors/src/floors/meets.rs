//! "the meet of all labels judged": one meet has to stand at or above the owner,
//! or at or above the floor. It is not enough that each label does so of one or
//! the other.

use super::PASSES;
use crate::case::{case, Case, Draft};
use crate::diamond::name_of;
use sheets::*;

pub fn cases() -> Vec<Case> {
    let mut cases = in_the_diamond();
    cases.extend(in_the_kite());
    cases.extend(of_operations());
    cases.extend(of_guards());
    cases.extend(of_reads());
    cases
}

/// Where an assignment's target, its value and its branch's guard come from.
struct Sources {
    target: u8,
    value: u8,
    branch: u8,
}

fn sources(target: u8, value: u8, branch: u8) -> Sources {
    Sources {
        target,
        value,
        branch,
    }
}

/// Slots 0 to 2 are the target, the value and the guard, slot 3 is the owner's.
/// The top's block writes it in a then-part; under this rule it passes or not.
fn flow(masks: &[u32], owner: u8, floor: u8, from: &Sources, rule: u32, passes: bool) -> Case {
    let name = format!(
        "{}'s target, {}'s value, {}'s branch to {}, floor {}, rule {rule}",
        name_of(from.target),
        name_of(from.value),
        name_of(from.branch),
        name_of(owner),
        name_of(floor)
    );
    let opening = [write_view(3), integer(5), truth(true), integer(0)];
    let owners = [from.target, from.value, from.branch, owner];
    let slots: Vec<(u8, Bytes)> = owners.into_iter().zip(opening.clone()).collect();
    let draft = case(name, PASSES)
        .store(store(masks, &slots))
        .floored(
            0x80 | TOP,
            floor,
            if_else(slot(2), assign(slot(0), slot(1)), skip()),
        )
        .rule(rule);
    if passes {
        let [_, value, ..] = opening.clone();
        let mut end = opening.map(kept);
        end[3] = once(value);
        draft.finishes(2, &end)
    } else {
        draft.refused(16, 0, 1 + slot(2).len(), 1)
    }
}

/// The meet of left and right is the bottom, which is at or above neither. For
/// each whether it passes under rule 2, and under rule 3.
fn in_the_diamond() -> Vec<Case> {
    let rows = [
        // Each label stands at or above the owner or the floor.
        (LEFT, RIGHT, sources(LEFT, RIGHT, TOP), [false, false]),
        (LEFT, RIGHT, sources(RIGHT, LEFT, TOP), [false, false]),
        (LEFT, RIGHT, sources(LEFT, TOP, RIGHT), [true, false]),
        (LEFT, RIGHT, sources(TOP, RIGHT, LEFT), [true, false]),
        // All at or above the one, or all at or above the other.
        (LEFT, RIGHT, sources(LEFT, TOP, LEFT), [true, true]),
        (LEFT, RIGHT, sources(TOP, RIGHT, RIGHT), [true, true]),
        // The floor is below the owner.
        (TOP, LEFT, sources(LEFT, LEFT, RIGHT), [true, false]),
    ];
    let cases = rows.iter().flat_map(|(owner, floor, from, passes)| {
        let under = |rule: u32, passes| flow(&DIAMOND, *owner, *floor, from, rule, passes);
        [under(2, passes[0]), under(3, passes[1])]
    });
    cases.collect()
}

/// Here the meet of left and right is the stem.
fn in_the_kite() -> Vec<Case> {
    let apart = sources(LEFT, RIGHT, TOP);
    let floors = [(LEFT, false), (RIGHT, false), (STEM, true), (BOTTOM, true)];
    let cases = floors.map(|(floor, passes)| flow(&KITE, TOP, floor, &apart, 3, passes));
    cases.into()
}

/// Left's slot holds 0 and right's 1; slot 2 is the top's. An endorsed block of
/// the top.
fn block(name: impl Into<String>, floor: u8, code: Bytes, rule: u32) -> Draft {
    let slots = [(LEFT, integer(0)), (RIGHT, integer(1)), (TOP, integer(7))];
    case(name, PASSES)
        .store(store(&DIAMOND, &slots))
        .floored(0x80 | TOP, floor, code)
        .rule(rule)
}

/// "The label is the meet of both labels" (document 02, N5), and is judged by the
/// floor as any other.
fn of_operations() -> Vec<Case> {
    let both = || sum(slot(0), slot(1));
    let left = || sum(slot(0), literal(integer(9)));
    let put = |what: &str, floor, value| {
        let name = format!("sum of {what} to the top, floor {}", name_of(floor));
        block(name, floor, set(2, value), 3)
    };
    let end = |gives| [kept(integer(0)), kept(integer(1)), once(integer(gives))];
    vec![
        put("left's and right's", LEFT, both()).refused(16, 0, 0, 0),
        put("left's and right's", BOTTOM, both()).finishes(1, &end(1)),
        put("left's and 9", LEFT, left()).finishes(1, &end(9)),
        put("left's and 9", RIGHT, left()).refused(16, 0, 0, 0),
    ]
}

/// Of a guard that is an operation: 0 is less than 1, so the then-part runs.
fn of_guards() -> Vec<Case> {
    let guard = || less_than(slot(0), slot(1));
    let place = 1 + guard().len();
    let guarded = |floor, rule: u32| {
        let name = format!(
            "less-than guards the top, floor {}, rule {rule}",
            name_of(floor)
        );
        block(
            name,
            floor,
            if_else(guard(), set_integer(2, 9), skip()),
            rule,
        )
    };
    let end = [kept(integer(0)), kept(integer(1)), once(integer(9))];
    vec![
        guarded(LEFT, 2).finishes(2, &end),
        guarded(LEFT, 3).refused(16, 0, place, 1),
        guarded(BOTTOM, 3).finishes(2, &end),
    ]
}

/// Two reads in a row: left's slot shows right's.
fn of_reads() -> Vec<Case> {
    let slots = [(LEFT, read_view(1)), (RIGHT, integer(5)), (TOP, integer(0))];
    let shown = |floor| {
        let name = format!("by left from right to the top, floor {}", name_of(floor));
        case(name, PASSES)
            .store(store(&DIAMOND, &slots))
            .floored(0x80 | TOP, floor, set(2, reads(2, 0)))
            .rule(3)
    };
    vec![
        shown(LEFT).refused(16, 0, 0, 0),
        shown(BOTTOM).finishes(1, &[kept(read_view(1)), kept(integer(5)), once(integer(5))]),
    ]
}
