//! "The label is the meet of both labels": of values (rules 2 and 3) and of
//! guards (rule 3). The diamond's left and right are unrelated, and their meet is
//! the bottom.

use super::{name_of, number};
use crate::case::{case, Case, Draft};
use crate::diamond::{at_or_below, name_of as owner_name, OWNERS};
use sheets::*;

pub fn cases() -> Vec<Case> {
    let mut cases = meets();
    cases.extend(each_operation());
    cases.extend(literals());
    cases.extend(nested());
    cases.extend(reads_in_operands());
    cases.extend(not_judged());
    cases.extend(branches());
    cases.extend(loops());
    cases
}

const MEET: &str = "The label is the meet of both labels.";

/// What a principal's slot holds: each owns the slot of its number.
fn of(principal: u8) -> Bytes {
    slot(i64::from(principal))
}

fn opening() -> [Bytes; 4] {
    [0, 1, 2, 3].map(integer)
}

/// The opening values with another one written into this principal's slot.
fn with(principal: u8, value: Bytes) -> [EndSlot; 4] {
    let mut end = opening().map(kept);
    end[usize::from(principal)] = once(value);
    end
}

/// A block over slots that hold the numbers of their owners. Its floor is the
/// bottom.
fn block(name: impl Into<String>, region: u8, code: Bytes, rule: u32) -> Draft {
    let slots: Vec<(u8, Bytes)> = OWNERS.into_iter().zip(opening()).collect();
    case(name, MEET)
        .store(store(&DIAMOND, &slots))
        .floored(region, BOTTOM, code)
        .rule(rule)
}

/// The top's block writes what an expression of this label gives to `to`'s slot:
/// it finishes if `to` stands at or below the label.
fn flow(name: String, expression: Bytes, label: u8, to: u8, gives: Bytes, rule: u32) -> Case {
    let write = block(name, TOP, set(i64::from(to), expression), rule);
    if at_or_below(to, label) {
        write.finishes(1, &with(to, gives))
    } else {
        write.refused(16, 0, 0, 0)
    }
}

/// Sums of two principals' slots, each with the meet of their owners. A label of
/// one operand alone, or of the smaller number, is seen.
fn meets() -> Vec<Case> {
    let rows = [
        (LEFT, RIGHT, BOTTOM),
        (RIGHT, LEFT, BOTTOM),
        (LEFT, LEFT, LEFT),
        (RIGHT, RIGHT, RIGHT),
        (LEFT, TOP, LEFT),
        (TOP, LEFT, LEFT),
        (RIGHT, TOP, RIGHT),
        (TOP, RIGHT, RIGHT),
        (BOTTOM, TOP, BOTTOM),
        (TOP, BOTTOM, BOTTOM),
        (LEFT, BOTTOM, BOTTOM),
        (BOTTOM, RIGHT, BOTTOM),
        (TOP, TOP, TOP),
    ];
    let mut cases = Vec::new();
    for (one, other, meet) in rows {
        for to in OWNERS {
            let gives = integer(i64::from(one) + i64::from(other));
            cases.extend([2, 3].map(|rule| {
                let name = format!(
                    "sum of {}'s and {}'s to {}, rule {rule}",
                    owner_name(one),
                    owner_name(other),
                    owner_name(to)
                );
                flow(name, sum(of(one), of(other)), meet, to, gives.clone(), rule)
            }));
        }
    }
    cases
}

/// Each of the others, of left's 0 and right's 1.
fn each_operation() -> Vec<Case> {
    let operations = [
        (DIFFERENCE, integer(-1)),
        (LESS_THAN, truth(true)),
        (EQUAL, truth(false)),
    ];
    let cases = operations.into_iter().flat_map(|(byte, gives)| {
        OWNERS.map(|to| {
            let name = format!(
                "{} of left's and right's to {}",
                name_of(byte),
                owner_name(to)
            );
            let expression = operation(byte, of(LEFT), of(RIGHT));
            flow(name, expression, BOTTOM, to, gives.clone(), 3)
        })
    });
    cases.collect()
}

/// "top for a literal": with one the label is the other operand's.
fn literals() -> Vec<Case> {
    let nine = || number(9);
    let mut cases = Vec::new();
    for to in OWNERS {
        let mut add = |what: &str, expression, label, gives| {
            let name = format!("sum of {what} to {}", owner_name(to));
            cases.push(flow(name, expression, label, to, integer(gives), 3));
        };
        add("two literals", sum(nine(), nine()), TOP, 18);
        add("a literal and right's", sum(nine(), of(RIGHT)), RIGHT, 10);
        add("right's and a literal", sum(of(RIGHT), nine()), RIGHT, 10);
    }
    cases
}

/// A low operand lowers the whole, however deep it stands and on whichever side.
fn nested() -> Vec<Case> {
    let wrap = |inner, left: bool| match left {
        true => sum(inner, number(0)),
        false => sum(number(0), inner),
    };
    let deep = |inner: Bytes, left| (0..6).fold(inner, |inner, _| wrap(inner, left));
    let both = |left| sum(deep(of(LEFT), left), deep(of(RIGHT), left));
    let mut cases = Vec::new();
    for (side, left) in [("left", true), ("right", false)] {
        for to in OWNERS {
            let name = |what: &str| format!("{what} {side} operands to {}", owner_name(to));
            let alone = deep(of(LEFT), left);
            cases.push(flow(name("left's in six"), alone, LEFT, to, integer(0), 3));
            cases.push(flow(
                name("left's and right's in six"),
                both(left),
                BOTTOM,
                to,
                integer(1),
                3,
            ));
        }
    }
    cases
}

/// The operand's label is that of its reads: here left's slot shows right's.
fn reads_in_operands() -> Vec<Case> {
    let slots = [(LEFT, read_view(1)), (RIGHT, integer(1))];
    let block = |name: String, to: u8, expression| {
        let slots = [&slots[..], &[(to, integer(0))]].concat();
        case(name, MEET)
            .store(store(&DIAMOND, &slots))
            .block(TOP, set(2, expression))
            .rule(3)
    };
    let cases = OWNERS.into_iter().flat_map(|to| {
        let name = |side: &str| format!("sum with two reads on its {side} to {}", owner_name(to));
        let sides = [
            block(name("left"), to, sum(reads(2, 0), number(8))),
            block(name("right"), to, sum(number(8), reads(2, 0))),
        ];
        let end = || [kept(read_view(1)), kept(integer(1)), once(integer(9))];
        sides.map(|draft| match to {
            BOTTOM => draft.finishes(1, &end()),
            _ => draft.refused(16, 0, 0, 0),
        })
    });
    cases.collect()
}

/// Rules 0 and 1 judge no label, and a block endorsed down to the bottom is spared.
fn not_judged() -> Vec<Case> {
    let code = || set(i64::from(TOP), sum(of(LEFT), of(RIGHT)));
    let end = with(TOP, integer(1));
    let plain = |rule: u32| {
        let name = format!("left's and right's to the top, rule {rule}");
        block(name, TOP, code(), rule)
    };
    let endorsed = |rule: u32| {
        let name = format!("left's and right's to the top, endorsed, rule {rule}");
        block(name, 0x80 | TOP, code(), rule).finishes(1, &end)
    };
    vec![
        plain(0).finishes(1, &end),
        plain(1).finishes(1, &end),
        plain(255).refused(16, 0, 0, 0),
        endorsed(2),
        endorsed(3),
        endorsed(255),
    ]
}

/// The guard's label is the branch's: 0 is less than 1, so the then-part runs.
fn branches() -> Vec<Case> {
    let guard = || less_than(of(LEFT), of(RIGHT));
    let place = 1 + guard().len();
    let mut cases = Vec::new();
    for to in OWNERS {
        let code = if_else(guard(), set_integer(i64::from(to), 9), skip());
        let end = with(to, integer(9));
        for rule in [2, 3, 255] {
            let name = format!("less-than guards {}, rule {rule}", owner_name(to));
            let draft = block(name, TOP, code.clone(), rule);
            cases.push(match (rule, to) {
                (2, _) | (_, BOTTOM) => draft.finishes(2, &end),
                _ => draft.refused(16, 0, place, 1),
            });
        }
    }
    cases
}

/// Inside the body of a while the label is the guard's; after it the outer one
/// is back. The bottom's slot holds 2, left's 0.
fn loops() -> Vec<Case> {
    let guard = || less_than(of(LEFT), of(BOTTOM));
    let body = || set_integer(i64::from(BOTTOM), -1);
    let high = || set_integer(i64::from(TOP), 9);
    let after = sequence(&[while_do(guard(), body()), high()]);
    let inside = while_do(guard(), sequence(&[body(), high()]));
    let place = 1 + guard().len() + 2 + body().len();
    let mut end = with(TOP, integer(9));
    end[usize::from(BOTTOM)] = once(integer(-1));
    vec![
        block("the top's after a low less-than", TOP, after, 3).finishes(4, &end),
        block("the top's inside a low less-than", TOP, inside, 3).refused(16, 0, place, 2),
    ]
}
