//! Runs in stretches (document 02, N8): where a run pauses and how it is carried on,
//! 12 over all buffers, 19 and its place among the refusals, budgets, and changes of
//! rule.

mod budgets;
mod chains;
mod deep;
mod lengths;
mod order;
mod outputs;
mod paths;
mod places;
mod refusals;
mod rising;
mod rules;
mod sheets_refused;
mod trace;

use crate::case::{case, Case, Draft};
use sheets::*;

pub fn cases() -> Vec<Case> {
    [
        places::cases(),
        deep::cases(),
        rising::cases(),
        budgets::cases(),
        rules::cases(),
        chains::cases(),
        refusals::cases(),
        lengths::cases(),
        order::cases(),
        paths::cases(),
        sheets_refused::cases(),
        outputs::cases(),
    ]
    .into_iter()
    .flatten()
    .collect()
}

const PATH: &str = "the child taken (from 0; then-part 0, else-part 1, body 0) and the branch \
    label inside it, from the block's command to the command whose step is next";
const REFUSED: &str = "19 when the path doesn't lead to an assignment, if or while, a label isn't \
    at or below the one outside it (equal in a sequence), an unused byte isn't 0, a value is \
    ill-formed, or counts add up to more than the steps";

/// A guard of one read of a slot, with the command's byte before it.
const HEAD: usize = 1 + 1 + LITERAL;

/// The length of an assignment of a literal.
const SET: usize = 1 + 2 * LITERAL;

/// The slots of `part_of_each`: a truth value of left's and of right's, an integer of
/// the bottom's and of the top's.
fn crossed_slots() -> [(u8, Bytes); 4] {
    [
        (LEFT, truth(true)),
        (RIGHT, truth(true)),
        (BOTTOM, integer(0)),
        (TOP, integer(0)),
    ]
}

/// What those slots hold, not written yet.
fn crossed_opening() -> Vec<EndSlot> {
    crossed_slots().map(|(_, value)| kept(value)).into()
}

/// Two blocks of the top's over them: an assignment, and a command with a part of
/// each sort.
///
/// ```text
/// block 1:  sequence
///       2     0 skip
///       3     1 if left's truth
///      15         0 sequence
///      17             0 bottom's := 8
///      38             1 skip
///      39         1 while right's truth
///      51             0 bottom's := 9
///      72     2 top's := 5
/// ```
fn part_of_each() -> Bytes {
    let then_part = sequence(&[set_integer(2, 8), skip()]);
    let else_part = while_do(slot(1), set_integer(2, 9));
    let choice = if_else(slot(0), then_part, else_part);
    let command = sequence(&[skip(), choice, set_integer(3, 5)]);
    programme(&[(TOP, set_integer(2, 1)), (TOP, command)])
}

/// A run of them is carried on from these bytes, with no steps left.
fn spent_from(
    name: impl Into<String>,
    says: &'static str,
    output: Bytes,
    pause: Bytes,
    budget: u32,
) -> Draft {
    case(name, says)
        .store(store(&DIAMOND, &crossed_slots()))
        .programme(part_of_each())
        .rule(3)
        .budget(budget)
        .carry_on(output, pause)
}
