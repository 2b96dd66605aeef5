//! Refusals of a step other than 17 leave both buffers as they were, in the first
//! stretch and in a later one.

use super::SET;
use crate::case::{case, Case};
use sheets::*;

pub fn cases() -> Vec<Case> {
    let steps = [
        (
            "13 by a target",
            assign(literal(integer(1)), nine()),
            0,
            3,
            13,
        ),
        ("13 by a guard", while_do(nine(), skip()), 0, 3, 13),
        (
            "13 by an operand",
            set(0, sum(nine(), literal(truth(true)))),
            0,
            0,
            13,
        ),
        ("14", set(1, nine()), 0, 0, 14),
        ("14", set(1, nine()), 0, 3, 14),
        ("15", set(1, nine()), 0, 1, 15),
        ("15 by a value", set(0, literal(write_view(1))), 0, 1, 15),
        ("16 by a value", set(1, slot(0)), 1, 2, 16),
        ("16 by a value", set(1, slot(0)), 1, 3, 16),
        ("16 by a value", set(1, slot(0)), 1, 255, 16),
    ];
    let cases = steps
        .into_iter()
        .flat_map(|(what, step, region, rule, number)| {
            let first = set_integer(0, 8);
            let place = 2 + SET;
            let held = [once(integer(8)), kept(integer(7))];
            let block = |stretch: &str| {
                case(format!("{what}, {stretch}, rule {rule}"), UNTOUCHED)
                    .block(region, sequence(&[first.clone(), step.clone()]))
                    .rule(rule)
            };
            let at = pause(1, 0, &[(1, 1)]);
            [
                block("in one stretch").start().refused(number, 0, place, 1),
                block("start with 1")
                    .budget(1)
                    .start()
                    .pauses(1, 0, &[(1, 1)], place, &held),
                block("in a second stretch")
                    .carry_on(output(&held), at)
                    .refused(number, 0, place, 1),
            ]
        });
    cases.collect()
}

const UNTOUCHED: &str = "answers 17, alone among refusals and against demand 1, by writing output";

fn nine() -> Bytes {
    literal(integer(9))
}
