//! The rule ladder of document 02, N2: what can change from a rule to a milder
//! one, and with a larger budget. These are the examples D1 to D26 of
//! `crates/calculus/specs/Descents.antt`, whose theorem is about the definitions
//! and which are played here as well; docs/LADDER.md has their table.

use crate::case::{case, finished, refused, Case, Draft, Expected};
use sheets::*;

pub fn cases() -> Vec<Case> {
    let mut cases = from_3_to_2();
    cases.extend(from_2_to_0());
    cases.extend(from_1_to_0());
    cases.extend(larger_budgets());
    cases.extend(unordered());
    cases
}

const FROM_3: &str =
    "A run that finishes under rule 3 finishes under rule 2 with the same store and steps.";
const FROM_2_AND_1: &str = "The same holds from 2 to 0 and from 1 to 0.";
const LARGER: &str =
    "A larger allowed budget never alters a run that already got an answer other than 17.";

/// Enough steps for each run here that can end.
const TEN: u32 = 10;

/// An example, run under two rules.
fn under(rules: [u32; 2], example: Draft, ends: [Expected; 2]) -> Vec<Case> {
    let runs = rules.into_iter().zip(ends).map(|(rule, end)| {
        let run = example.clone().variant(&format!("rule {rule}"));
        run.budget(TEN).rule(rule).ends(end)
    });
    runs.collect()
}

/// An example, run with two budgets.
fn within(budgets: [u32; 2], example: Draft, ends: [Expected; 2]) -> Vec<Case> {
    let runs = budgets.into_iter().zip(ends).map(|(budget, end)| {
        let run = example.clone().variant(&format!("budget {budget}"));
        run.budget(budget).ends(end)
    });
    runs.collect()
}

/// P9's store: slot 0 is true.
fn flagged(example: Draft) -> Draft {
    example.store(store(&PAIR, &[(0, truth(true)), (1, integer(7))]))
}

/// P9's command, and where its then-part stands.
fn branches() -> Bytes {
    if_else(slot(0), set_integer(1, 41), set_integer(1, 42))
}

const THEN_PART: usize = 1 + 1 + LITERAL;

fn copy() -> Bytes {
    set(1, slot(0))
}

fn raise() -> Bytes {
    set_integer(1, 9)
}

fn keep_view() -> Bytes {
    set(0, literal(write_view(1)))
}

/// The guard is no truth value.
fn no_guard() -> Bytes {
    while_do(literal(integer(5)), skip())
}

fn forever() -> Bytes {
    while_do(literal(truth(true)), skip())
}

/// Rule 3 refuses a write for its branch's label. Rule 2 passes it, one step
/// more, and comes to the second block; in D4 it refuses the value's label.
fn from_3_to_2() -> Vec<Case> {
    let branch = || refused(16, 0, THEN_PART, 1);
    let then = |name, region, code, end| {
        let example = flagged(case(name, FROM_3)).blocks(&[(1, branches()), (region, code)]);
        under([3, 2], example, [branch(), end])
    };
    let value = || refused(16, 1, 0, 1);
    [
        under(
            [3, 2],
            flagged(case("D1", FROM_3)).block(1, branches()),
            [
                branch(),
                finished(1, 2, &[kept(truth(true)), once(integer(41))]),
            ],
        ),
        then("D2", 1, no_guard(), refused(13, 1, 0, 2)),
        then("D3", 0, raise(), refused(14, 1, 0, 2)),
        under(
            [3, 2],
            case("D4", FROM_3).programme(example_programme([0, 1])),
            [value(), value()],
        ),
        then("D5", 1, copy(), refused(16, 1, 0, 2)),
        then("D6", 1, forever(), refused(17, 1, 0, TEN)),
    ]
    .into_iter()
    .flatten()
    .collect()
}

/// Rule 2 refuses a low value that goes up. Rule 0 passes it and comes to the
/// second block.
fn from_2_to_0() -> Vec<Case> {
    let then = |name, region, code, end| {
        let example = case(name, FROM_2_AND_1).blocks(&[(1, copy()), (region, code)]);
        under([2, 0], example, [refused(16, 0, 0, 0), end])
    };
    [
        under(
            [2, 0],
            case("D7", FROM_2_AND_1).programme(example_programme([0, 1])),
            [
                refused(16, 1, 0, 1),
                finished(2, 2, &[integer(42), integer(42)].map(once)),
            ],
        ),
        then("D8", 1, no_guard(), refused(13, 1, 0, 1)),
        then("D9", 0, raise(), refused(14, 1, 0, 1)),
        then("D10", 1, forever(), refused(17, 1, 0, TEN)),
    ]
    .into_iter()
    .flatten()
    .collect()
}

/// Rule 1 refuses a write view of slot 1 to region 0. Rule 0 judges what is
/// done with it: in the same step, or in the second block.
fn from_1_to_0() -> Vec<Case> {
    let alone = |name, code, end| {
        let example = case(name, FROM_2_AND_1).block(0, code);
        under([1, 0], example, [refused(15, 0, 0, 0), end])
    };
    let then = |name, code, end| {
        let example = case(name, FROM_2_AND_1).blocks(&[(0, keep_view()), (0, code)]);
        under([1, 0], example, [refused(15, 0, 0, 0), end])
    };
    let read_through = set(0, read(literal(write_view(1))));
    let write_through = assign(slot(0), literal(integer(9)));
    [
        alone(
            "D11",
            keep_view(),
            finished(1, 1, &[once(write_view(1)), kept(integer(7))]),
        ),
        alone("D12", read_through, refused(13, 0, 0, 0)),
        then("D13", no_guard(), refused(13, 1, 0, 1)),
        alone("D14", raise(), refused(14, 0, 0, 0)),
        then("D15", write_through, refused(14, 1, 0, 1)),
        then("D16", forever(), refused(17, 1, 0, TEN)),
    ]
    .into_iter()
    .flatten()
    .collect()
}

/// The step at which the run is spent is judged where more are allowed.
fn larger_budgets() -> Vec<Case> {
    let first = |name, rule, code, end| {
        let example = case(name, LARGER).block(0, code).rule(rule);
        within([0, TEN], example, [refused(17, 0, 0, 0), end])
    };
    let never = while_do(literal(truth(false)), skip());
    [
        within(
            [0, 1],
            case("D17", LARGER).block(0, never),
            [
                refused(17, 0, 0, 0),
                finished(1, 1, &[integer(5), integer(7)].map(kept)),
            ],
        ),
        first("D18", 0, no_guard(), refused(13, 0, 0, 0)),
        first("D19", 0, raise(), refused(14, 0, 0, 0)),
        first("D20", 1, raise(), refused(15, 0, 0, 0)),
        within(
            [1, TEN],
            flagged(case("D21", LARGER)).block(1, branches()).rule(3),
            [refused(17, 0, THEN_PART, 1), refused(16, 0, THEN_PART, 1)],
        ),
        within(
            [3, TEN],
            case("D22", LARGER).block(0, forever()),
            [refused(17, 0, 0, 3), refused(17, 0, 0, TEN)],
        ),
    ]
    .into_iter()
    .flatten()
    .collect()
}

/// Rule 1 stands in no order with 2, nor with 3.
fn unordered() -> Vec<Case> {
    let says = "Digs change rule sets.";
    let value_goes_up = |name, rules| {
        let end = finished(2, 2, &[integer(42), integer(42)].map(once));
        let example = case(name, says).programme(example_programme([0, 1]));
        under(rules, example, [end, refused(16, 1, 0, 1)])
    };
    let view_is_kept = |name, rules| {
        let end = finished(1, 1, &[once(write_view(1)), kept(integer(7))]);
        let example = case(name, says).block(0, keep_view());
        under(rules, example, [end, refused(15, 0, 0, 0)])
    };
    [
        value_goes_up("D23", [1, 2]),
        view_is_kept("D24", [2, 1]),
        value_goes_up("D25", [1, 3]),
        view_is_kept("D26", [3, 1]),
    ]
    .into_iter()
    .flatten()
    .collect()
}
