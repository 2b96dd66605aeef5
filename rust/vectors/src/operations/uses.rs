//! Where an operation can stand, and where what it gives is of a wrong kind (13):
//! in other operations, as a guard, a target or what is read, and in loops.

use super::{name_of, number};
use crate::case::{case, Case, Draft};
use sheets::*;

pub fn cases() -> Vec<Case> {
    let mut cases = nested();
    cases.extend(as_guards());
    cases.extend(as_targets_and_guards());
    cases.extend(read_results());
    cases.extend(present_values());
    cases.extend(loops());
    cases
}

const FOLLOWED: &str = "Each is followed by two expressions.";

/// Document 01's store, of which slot 0 gets what an expression gives.
fn own(name: &str, says: &'static str, expression: Bytes, result: Bytes) -> Case {
    case(name, says)
        .block(0, set(0, expression))
        .finishes(1, &[once(result), kept(integer(7))])
}

/// Operations of operations, on either side.
fn nested() -> Vec<Case> {
    let six = || difference(number(10), number(4));
    let less = || less_than(number(1), number(2));
    vec![
        own(
            "difference of a difference and 3",
            FOLLOWED,
            difference(six(), number(3)),
            integer(3),
        ),
        own(
            "difference of 3 and a difference",
            FOLLOWED,
            difference(number(3), six()),
            integer(-3),
        ),
        own(
            "sum of a sum and a difference",
            FOLLOWED,
            sum(sum(number(1), slot(0)), six()),
            integer(12),
        ),
        own(
            "less-than of sums that wrap",
            FOLLOWED,
            less_than(sum(number(GREATEST), number(1)), sum(number(-1), number(1))),
            truth(true),
        ),
        own(
            "equal of a less-than and true",
            FOLLOWED,
            equal(less(), literal(truth(true))),
            truth(true),
        ),
        own(
            "equal of a less-than and an equal",
            FOLLOWED,
            equal(less(), equal(number(0), literal(truth(false)))),
            truth(false),
        ),
        own(
            "equal of a sum and a slot",
            FOLLOWED,
            equal(sum(number(3), number(2)), slot(0)),
            truth(true),
        ),
    ]
}

/// Comparisons are truth values, so they can be guards.
fn as_guards() -> Vec<Case> {
    let guards = [
        ("less-than", less_than(slot(0), number(6)), true),
        ("less-than", less_than(number(6), slot(0)), false),
        ("equal", equal(slot(0), number(5)), true),
        ("equal", equal(slot(0), literal(truth(true))), false),
    ];
    let says = "Guard: must be a truth value.";
    let cases = guards.into_iter().flat_map(|(name, guard, holds)| {
        RULES.map(|rule| {
            let (then_part, else_part) = (set_integer(0, 41), set_integer(0, 42));
            let end = if holds { 41 } else { 42 };
            case(format!("if of {name}, {holds}, rule {rule}"), says)
                .block(0, if_else(guard.clone(), then_part, else_part))
                .rule(rule)
                .finishes(2, &[once(integer(end)), kept(integer(7))])
        })
    });
    cases.collect()
}

/// No operation gives a view, so none is a target; a sum is no guard.
fn as_targets_and_guards() -> Vec<Case> {
    let says = "13 wrong kind for a guard, read or target";
    let cases = OPERATIONS.into_iter().flat_map(|byte| {
        RULES.into_iter().flat_map(move |rule| {
            let draft = |what: &str, code| {
                let name = format!("{} for {what}, rule {rule}", name_of(byte));
                case(name, says).block(0, code).rule(rule)
            };
            let expression = || operation(byte, number(0), number(0));
            let target = draft("a target", assign(expression(), number(1)));
            let guard = draft("a guard", if_else(expression(), skip(), skip()));
            let guard = match byte {
                SUM | DIFFERENCE => guard.refused(13, 0, 0, 0),
                _ => guard.finishes(1, &[integer(5), integer(7)].map(kept)),
            };
            [target.refused(13, 0, 0, 0), guard]
        })
    });
    cases.collect()
}

/// Nor can what an operation gives be read. That is judged after what its
/// operands meet: region 0 may not hold a write view of slot 1 under rule 1.
fn read_results() -> Vec<Case> {
    let says = "a read needs a read view";
    let (view, forbidden) = (literal(read_view(1)), literal(write_view(1)));
    let cases = OPERATIONS.into_iter().flat_map(|byte| {
        let refused = |of: &str, left: &Bytes, right: &Bytes, rule: u32, by| {
            let name = format!("read of {} of {of}, rule {rule}", name_of(byte));
            let expression = read(operation(byte, left.clone(), right.clone()));
            let draft = case(name, says).block(0, set(0, expression)).rule(rule);
            draft.refused(by, 0, 0, 0)
        };
        let one = number(1);
        let by_rule = RULES.map(|rule| refused("integers", &one, &one, rule, 13));
        let more = [
            refused("read views", &view, &view, 0, 13),
            refused("read views", &view, &view, 1, 13),
            refused("a forbidden view and 1", &forbidden, &one, 0, 13),
            refused("a forbidden view and 1", &forbidden, &one, 1, 15),
            refused("1 and a forbidden view", &one, &forbidden, 1, 15),
        ];
        by_rule.into_iter().chain(more)
    });
    cases.collect()
}

/// Each operand that is a read gives what its slot holds at that step.
fn present_values() -> Vec<Case> {
    let says = "a read needs a read view and gives that slot's present value";
    let doubled = || set(0, sum(slot(0), slot(0)));
    let (views, end) = chain();
    vec![
        case("a slot is doubled twice", says)
            .block(0, sequence(&[doubled(), doubled()]))
            .finishes(2, &[written(2, integer(20)), kept(integer(7))]),
        case("sum of reads in a row", says)
            .store(views)
            .block(0, set(3, sum(reads(2, 0), reads(3, 2))))
            .finishes(1, &end),
        case("equal of a view that is read and a literal view", says)
            .block(
                0,
                sequence(&[
                    set(0, literal(read_view(1))),
                    set(0, equal(slot(0), literal(read_view(1)))),
                ]),
            )
            .finishes(2, &[written(2, truth(true)), kept(integer(7))]),
    ]
}

/// Slot 2 shows slot 0, which shows slot 1; slot 3 gets 6 and 6.
fn chain() -> (Bytes, [EndSlot; 4]) {
    let opening = [read_view(1), integer(6), read_view(0), integer(9)];
    let slots = opening.clone().map(|value| (0, value));
    let mut end = opening.map(kept);
    end[3] = once(integer(12));
    (store(&[1], &slots), end)
}

const AGAIN: &str = "A while whose guard is true runs its body and judges again.";

fn counted(name: &str, slots: [i64; 2], code: Bytes) -> Draft {
    let slots = slots.map(|payload| (0, integer(payload)));
    case(name, AGAIN)
        .store(store(&[1], &slots))
        .block(0, code)
        .rule(3)
}

/// Loops that count: up to a limit, down to one, and past the greatest integer.
fn loops() -> Vec<Case> {
    let step = || set(1, sum(slot(1), number(1)));
    let add = set(0, sum(slot(0), slot(1)));
    let up = while_do(less_than(slot(1), number(4)), sequence(&[add, step()]));
    let back = set(1, difference(slot(1), number(3)));
    let down = while_do(less_than(number(0), slot(1)), back);
    let past = while_do(less_than(number(0), slot(1)), step());
    let until = while_do(
        equal(equal(slot(1), number(3)), literal(truth(false))),
        step(),
    );
    let up_place = 1 + less_than(slot(1), number(4)).len() + 2;
    vec![
        // 0 + 1 + 2 + 3, in four rounds of a guard and two assignments.
        counted("while slot 1 is less than 4", [0, 0], up.clone())
            .finishes(13, &[written(4, integer(6)), written(4, integer(4))]),
        counted("while slot 1 is less than 4, budget 12", [0, 0], up.clone())
            .budget(12)
            .refused(17, 0, 0, 12),
        counted("while slot 1 is less than 4, budget 4", [0, 0], up)
            .budget(4)
            .refused(17, 0, up_place, 4),
        counted("while 0 is less than what falls by 3", [9, 7], down)
            .finishes(7, &[kept(integer(9)), written(3, integer(-2))]),
        counted("while 0 is less than what grows", [9, GREATEST - 1], past)
            .finishes(5, &[kept(integer(9)), written(2, integer(LEAST))]),
        counted("until a slot is 3", [9, 0], until)
            .finishes(7, &[kept(integer(9)), written(3, integer(3))]),
    ]
}
