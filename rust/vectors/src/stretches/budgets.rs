//! Budgets beside the steps so far: "a budget that includes the steps so far; one at
//! or below them gives 17 before any step".

use super::places::{rounds, writes};
use super::trace::Trace;
use crate::case::{case, Case, Draft};
use sheets::*;

pub fn cases() -> Vec<Case> {
    let mut cases = at_or_below(&writes());
    cases.extend(at_or_below(&rounds()));
    cases.extend(not_judged());
    cases.extend(far_on());
    cases.extend(past_every_budget());
    cases
}

const INCLUDES: &str = "a budget that includes the steps so far; one at or below them gives 17 \
    before any step";
/// The most steps there are.
const MOST: u32 = 1_000_000;

/// Every budget up to the steps so far: both buffers are copied.
fn at_or_below(trace: &Trace) -> Vec<Case> {
    let below = (1..trace.steps()).flat_map(|from| {
        let budgets = 0..=from;
        budgets.map(move |budget| trace.carry_on(from, budget, 3))
    });
    let at = [0, 1, 2, 255].map(|rule| trace.carry_on(0, 0, rule));
    below.chain(at).collect()
}

/// One slot, and one block that is to write 1 to it.
fn one_write(name: String, steps: u32, budget: u32) -> Draft {
    case(name, INCLUDES)
        .store(store(&[1], &[(0, integer(5))]))
        .block(0, set_integer(0, 1))
        .rule(3)
        .budget(budget)
        .carry_on(output(&[kept(integer(5))]), pause(steps, 0, &[]))
}

/// A step for which no budget is left is not judged.
fn not_judged() -> Vec<Case> {
    let steps = [
        (
            "13",
            assign(literal(integer(1)), literal(integer(2))),
            3,
            13,
        ),
        (
            "13 of a guard",
            while_do(literal(integer(1)), skip()),
            3,
            13,
        ),
        ("14", set_integer(1, 9), 0, 14),
        ("15", set_integer(1, 9), 1, 15),
    ];
    let cases = steps.into_iter().flat_map(|(what, code, rule, number)| {
        let slots = [kept(integer(5)), kept(integer(7))];
        let from = |budget: u32| {
            case(format!("from 4 with {budget}, {what} is next"), INCLUDES)
                .block(0, code.clone())
                .rule(rule)
                .budget(budget)
                .carry_on(output(&slots), pause(4, 0, &[]))
        };
        [
            from(3).pauses(4, 0, &[], 0, &slots),
            from(4).pauses(4, 0, &[], 0, &slots),
            from(5).refused(number, 0, 0, 4),
        ]
    });
    cases.collect()
}

/// The last steps that there are.
fn far_on() -> Vec<Case> {
    let endless = |budget: u32| {
        case(format!("from 999998 with {budget}, endless"), INCLUDES)
            .store(store(&[1], &[]))
            .block(0, while_do(literal(truth(true)), skip()))
            .rule(3)
            .budget(budget)
            .carry_on(vec![], pause(MOST - 2, 0, &[]))
    };
    let written = |steps| one_write(format!("from {steps} with {MOST}"), steps, MOST);
    vec![
        endless(MOST - 1).pauses(MOST - 1, 0, &[], 0, &[]),
        endless(MOST).pauses(MOST, 0, &[], 0, &[]),
        endless(MOST + 1).refused_early(11),
        written(MOST - 1).finishes(MOST, &[once(integer(1))]),
        written(MOST).pauses(MOST, 0, &[], 0, &[kept(integer(5))]),
    ]
}

/// Steps so far above every budget are no refusal of their own.
fn past_every_budget() -> Vec<Case> {
    let steps = [MOST + 1, 1 << 24, 1 << 31, u32::MAX - 1, u32::MAX];
    let cases = steps.into_iter().flat_map(|steps| {
        let from = |budget| one_write(format!("from {steps} with {budget}"), steps, budget);
        let spent = |budget| from(budget).pauses(steps, 0, &[], 0, &[kept(integer(5))]);
        let too_large = from(MOST + 2).refused_early(11);
        [spent(0), spent(MOST), too_large]
    });
    cases.collect()
}
