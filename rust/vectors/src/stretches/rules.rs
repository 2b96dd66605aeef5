//! Changes of rule: "After a change of rule, the next step is the first judged by the
//! new one." "Branch labels are kept under every rule."

use super::{HEAD, SET};
use crate::case::{case, Case, Draft};
use sheets::*;

pub fn cases() -> Vec<Case> {
    let mut cases = branches();
    cases.extend(flows());
    cases.extend(views());
    cases.extend(after_a_body());
    cases
}

const CHANGE: &str = "After a change of rule, the next step is the first judged by the new one.";
const KEPT: &str = "Branch labels are kept under every rule.";

/// P9: under any rule the label inside the part is the low guard's.
fn branches() -> Vec<Case> {
    let slots = [(0, truth(true)), (1, integer(7))];
    let opening = [kept(truth(true)), kept(integer(7))];
    let end = [kept(truth(true)), once(integer(41))];
    let p9 = |name: String| {
        case(name, KEPT)
            .store(store(&PAIR, &slots))
            .block(1, if_else(slot(0), set_integer(1, 41), set_integer(1, 42)))
    };
    let path = [(THEN_PART, 0)];
    let cases = RULES.into_iter().flat_map(|rule| {
        let start = p9(format!("P9, start under {rule}"))
            .rule(rule)
            .budget(1)
            .start()
            .pauses(1, 0, &path, HEAD, &opening);
        let next = p9(format!("P9, carried on under {rule}"))
            .rule(rule)
            .carry_on(output(&opening), pause(1, 0, &path));
        let next = match rule {
            3 | 255 => next.refused(16, 0, HEAD, 1),
            _ => next.finishes(2, &end),
        };
        [start, next]
    });
    cases.collect()
}

/// Document 01's programme: the second block's step is refused by 16 under rules 2
/// and 3. With a third block, whose region lacks authority.
fn flows() -> Vec<Case> {
    let blocks = [
        (0, set_integer(0, 42)),
        (1, set(1, slot(0))),
        (0, set_integer(1, 9)),
    ];
    let held = [
        [kept(integer(5)), kept(integer(7))],
        [once(integer(42)), kept(integer(7))],
        [once(integer(42)), once(integer(42))],
    ];
    let from = |steps: u32, rule: u32, budget: u32| {
        let name = format!("flows, from {steps} under {rule} with {budget}");
        let slots = &held[steps as usize];
        case(name, CHANGE)
            .blocks(&blocks)
            .rule(rule)
            .budget(budget)
            .carry_on(output(slots), pause(steps, steps as u8, &[]))
    };
    let cases = RULES.into_iter().flat_map(|rule| {
        let second = match rule {
            0 | 1 => from(1, rule, 2).pauses(2, 2, &[], 0, &held[2]),
            _ => from(1, rule, 2).refused(16, 1, 0, 1),
        };
        // What was let pass before is not judged again.
        let third = match rule {
            1 => from(2, rule, 3).refused(15, 2, 0, 2),
            _ => from(2, rule, 3).refused(14, 2, 0, 2),
        };
        [
            from(0, rule, 1).pauses(1, 1, &[], 0, &held[1]),
            second,
            third,
        ]
    });
    cases.collect()
}

/// Under rule 1 a slot may hold a write view that another rule let in: it is judged
/// where it turns up.
fn views() -> Vec<Case> {
    let code = |last: Bytes| sequence(&[set(0, literal(write_view(1))), last]);
    let held = [once(write_view(1)), kept(integer(7))];
    let second = 2 + SET;
    let from = |what: &str, last: Bytes, rule: u32| {
        case(format!("a view let in, {what} under {rule}"), CHANGE)
            .block(0, code(last))
            .rule(rule)
            .carry_on(output(&held), pause(1, 0, &[(1, 1)]))
    };
    let over = || set_integer(0, 9);
    let read = || set(0, slot(0));
    let mut cases = vec![case("a view let in, start under 0", CHANGE)
        .block(0, code(over()))
        .budget(1)
        .start()
        .pauses(1, 0, &[(1, 1)], second, &held)];
    for rule in RULES {
        let end = [written(2, integer(9)), kept(integer(7))];
        cases.push(from("written over", over(), rule).finishes(2, &end));
        let kept_view = [written(2, write_view(1)), kept(integer(7))];
        cases.push(match rule {
            1 => from("read", read(), rule).refused(15, 0, second, 1),
            _ => from("read", read(), rule).finishes(2, &kept_view),
        });
    }
    cases
}

/// The misreading "leaving a while body's label behind", where a rule comes in that
/// judges it: after the body the top is back.
fn after_a_body() -> Vec<Case> {
    let off = || set(0, literal(truth(false)));
    let code = sequence(&[while_do(slot(0), off()), set_integer(1, 9)]);
    let slots = [(0, truth(true)), (1, integer(7))];
    let (body, last) = (2 + HEAD, 2 + HEAD + SET);
    let block = |name: &str, rule: u32| {
        case(format!("after a body, {name}"), KEPT)
            .store(store(&PAIR, &slots))
            .block(1, code.clone())
            .rule(rule)
    };
    let next = |name: &str, rule: u32, held: &[EndSlot], at: Bytes| -> Draft {
        block(name, rule).carry_on(output(held), at)
    };
    let on = [kept(truth(true)), kept(integer(7))];
    let turned = [once(truth(false)), kept(integer(7))];
    let end = [once(truth(false)), once(integer(9))];
    let in_body = [(0, 1), (BODY, 0)];
    let judged_again = [(0, 1)];
    vec![
        block("start under 0 with 1", 0)
            .budget(1)
            .start()
            .pauses(1, 0, &in_body, body, &on),
        next("in it under 3", 3, &on, pause(1, 0, &in_body)).finishes(4, &end),
        block("start under 0 with 2", 0)
            .budget(2)
            .start()
            .pauses(2, 0, &judged_again, 2, &turned),
        next(
            "judged again under 3",
            3,
            &turned,
            pause(2, 0, &judged_again),
        )
        .finishes(4, &end),
        block("start under 1 with 3", 1)
            .budget(3)
            .start()
            .pauses(3, 0, &[(1, 1)], last, &turned),
        next("behind it under 3", 3, &turned, pause(3, 0, &[(1, 1)])).finishes(4, &end),
    ]
}
