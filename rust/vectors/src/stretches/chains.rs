//! What a pause sheet can be made to say: labels are forged where 19 lets them pass,
//! and written again by a call that has no steps left. So "each sheet and output came
//! back as written" has to be said of an unbroken chain from a start.

use super::HEAD;
use crate::case::{case, Case, Draft};
use sheets::*;

pub fn cases() -> Vec<Case> {
    let mut cases = chain_of(true);
    cases.extend(chain_of(false));
    cases.extend(other_values());
    cases
}

const WRITTEN: &str = "each sheet and output came back as written";
const OPENING: &str = "the old output and pause sheet, only read, as opening values and place";

/// P9 under rule 3 with slot 0 true or false. The unbroken chain is refused by 16;
/// with the label forged to the top slot 1 tells slot 0, which stands below it.
fn chain_of(flag: bool) -> Vec<Case> {
    let set_length = set_integer(1, 41).len();
    let (child, offset, value) = match flag {
        true => (THEN_PART, HEAD, 41),
        false => (ELSE_PART, HEAD + set_length, 42),
    };
    let slots = [kept(truth(flag)), kept(integer(7))];
    let p9 = |what: &str| {
        case(format!("P9 with {flag}, {what}"), WRITTEN)
            .store(store(&PAIR, &[(0, truth(flag)), (1, integer(7))]))
            .block(1, if_else(slot(0), set_integer(1, 41), set_integer(1, 42)))
            .rule(3)
    };
    let from = |what: &str, label: u8| -> Draft {
        p9(what).carry_on(output(&slots), pause(1, 0, &[(child, label)]))
    };
    let paused = |draft: Draft, label: u8| {
        draft
            .budget(1)
            .pauses(1, 0, &[(child, label)], offset, &slots)
    };
    vec![
        paused(p9("start").start(), 0),
        paused(from("written again", 0), 0),
        from("as written", 0).refused(16, 0, offset, 1),
        paused(from("forged and written", 1), 1),
        from("forged", 1).finishes(2, &[kept(truth(flag)), once(integer(value))]),
    ]
}

/// The store sheet's own values are judged by 5, and not used; counts go on.
fn other_values() -> Vec<Case> {
    let over = |name: &str, opening: Bytes| {
        let old = [written(2, integer(9)), kept(truth(true))];
        case(format!("old output over {name}"), OPENING)
            .store(store(&[1], &[(0, opening), (0, integer(0))]))
            .block(0, set(1, slot(0)))
            .rule(3)
            .carry_on(output(&old), pause(5, 0, &[]))
    };
    let end = [written(2, integer(9)), once(integer(9))];
    vec![
        over("an integer", integer(3)).finishes(6, &end),
        over("a view", write_view(1)).finishes(6, &end),
        over("an unknown kind", value(4, 0)).refused_early(5),
        over("a truth value of 2", value(1, 2)).refused_early(5),
    ]
}
