//! What is judged of an endorsed assignment: under rules 2 and 3 its labels, by
//! 16, and before them what it was before.

use super::{ALLOWED, PASSES};
use crate::case::{case, Case, Draft};
use sheets::*;

pub fn cases() -> Vec<Case> {
    let mut cases = p5();
    cases.extend(branches());
    cases.extend(bodies());
    cases.extend(after_parts());
    cases.extend(authority());
    cases.extend(order_in_a_step());
    cases
}

/// The guard of an if or a while, a read, with the command's byte before it.
const HEAD: usize = 1 + 1 + LITERAL;

/// Document 01's example, its second block endorsed. Rules 0 and 1 judge no
/// label.
fn p5() -> Vec<Case> {
    let p5 = |floor: u8, rule: u32| {
        let says = "For P5, floor 0 still finishes and floor 1 gives 16.";
        case(format!("P5 floor {floor}, rule {rule}"), says)
            .programme(example_with_floors([0, 0x81], [0, floor]))
            .rule(rule)
    };
    let end = [integer(42), integer(42)].map(once);
    let floor_0 = RULES.map(|rule| p5(0, rule).finishes(2, &end));
    let not_judged = [0, 1].map(|rule| p5(1, rule).finishes(2, &end));
    let judged = [2, 3, 255].map(|rule| p5(1, rule).refused(16, 1, 0, 1));
    let cases = floor_0.into_iter().chain(not_judged).chain(judged);
    cases.collect()
}

/// Slot 0 is low and true, slot 1 is high.
fn on_flag(what: &str, floor: u8, code: Bytes, rule: u32) -> Draft {
    case(
        format!("endorsed {what}, floor {floor}, rule {rule}"),
        PASSES,
    )
    .store(store(&PAIR, &[(0, truth(true)), (1, integer(7))]))
    .floored(0x81, floor, code)
    .rule(rule)
}

/// P9, endorsed: "all labels judged" are target's and value's under rule 2, and
/// the branch's too under rule 3.
fn branches() -> Vec<Case> {
    let choice = || if_else(slot(0), set_integer(1, 41), set_integer(1, 42));
    let end = [kept(truth(true)), once(integer(41))];
    vec![
        on_flag("if", 1, choice(), 2).finishes(2, &end),
        on_flag("if", 1, choice(), 3).refused(16, 0, HEAD, 1),
        on_flag("if", 1, choice(), 255).refused(16, 0, HEAD, 1),
        on_flag("if", 0, choice(), 3).finishes(2, &end),
    ]
}

/// The same for a while's body; of the two slots that it writes the low one is
/// at or below the branch's label.
fn bodies() -> Vec<Case> {
    let off = || set(0, literal(truth(false)));
    let both = || while_do(slot(0), sequence(&[set_integer(1, 9), off()]));
    let end = [truth(false), integer(9)].map(once);
    vec![
        on_flag("while", 1, both(), 2).finishes(4, &end),
        on_flag("while", 1, both(), 3).refused(16, 0, HEAD + 2, 1),
        on_flag("while to a low slot", 1, while_do(slot(0), off()), 3)
            .finishes(3, &[once(truth(false)), kept(integer(7))]),
    ]
}

/// After the part the outer label is back, which is the top.
fn after_parts() -> Vec<Case> {
    let part = if_else(slot(0), skip(), skip());
    let code = sequence(&[part, set_integer(1, 9)]);
    let end = [kept(truth(true)), once(integer(9))];
    vec![on_flag("write after an if", 1, code, 3).finishes(2, &end)]
}

/// 14 is told before 16, and no floor gives authority. Rule 1 refuses the write
/// view.
fn authority() -> Vec<Case> {
    let up = |floor: u8, rule: u32| {
        let name = format!("a low value without authority, floor {floor}, rule {rule}");
        let number = if rule == 1 { 15 } else { 14 };
        case(name, ALLOWED)
            .floored(0x80, floor, set(1, slot(0)))
            .rule(rule)
            .refused(number, 0, 0, 0)
    };
    let before_16 = RULES.map(|rule| up(1, rule));
    before_16.into_iter().chain([up(0, 3)]).collect()
}

/// "In a step: 17, [..] the target and then the value, [..] then 14, then 16."
fn order_in_a_step() -> Vec<Case> {
    let order = "In a step: 17, then the guard, or the target and then the value";
    let block = |name, code| case(name, order).floored(0x81, 1, code).rule(3);
    let copy = || set(1, slot(0));
    let wrong = set(1, sum(slot(0), literal(truth(true))));
    let first = set_integer(0, 9);
    let place = 2 + first.len();
    vec![
        block("17 before an endorsed 16", copy())
            .budget(0)
            .refused(17, 0, 0, 0),
        block("13 before an endorsed 16", wrong).refused(13, 0, 0, 0),
        block("an endorsed 16 after a step", sequence(&[first, copy()])).refused(16, 0, place, 1),
    ]
}
