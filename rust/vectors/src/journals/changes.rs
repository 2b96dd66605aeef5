//! What becomes of an answer with a milder rule, a larger budget or a longer
//! journal, where 18 is one of the two.

use super::FULL;
use crate::case::{case, Case, Draft};
use sheets::*;

pub fn cases() -> Vec<Case> {
    let mut cases = milder_rules();
    cases.extend(larger_budgets());
    cases.extend(longer_journals());
    cases
}

/// The stricter rule refuses the first block's assignment, after a guard or not;
/// the milder one passes it, and the second block's finds the journal full.
fn milder_rules() -> Vec<Case> {
    let slots = [(0, truth(true)), (1, integer(7))];
    let block = |name: String, region, first: &Bytes, rule: u32| {
        case(format!("{name}, rule {rule}"), FULL)
            .store(store(&PAIR, &slots))
            .blocks(&[(region, first.clone()), (region, set(0, slot(0)))])
            .rule(rule)
            .journal(1)
    };
    let branch = if_else(slot(0), set_integer(1, 9), skip());
    let place = 1 + slot(0).len();
    let value = set(1, slot(0));
    let view = set(0, literal(write_view(1)));
    vec![
        block("16 for a branch, then 18".into(), 1, &branch, 3).refused(16, 0, place, 1),
        block("16 for a branch, then 18".into(), 1, &branch, 2).refused(18, 1, 0, 2),
        block("16 for a value, then 18".into(), 1, &value, 2).refused(16, 0, 0, 0),
        block("16 for a value, then 18".into(), 1, &value, 0).refused(18, 1, 0, 1),
        block("15 for a value, then 18".into(), 0, &view, 1).refused(15, 0, 0, 0),
        block("15 for a value, then 18".into(), 0, &view, 0).refused(18, 1, 0, 1),
    ]
}

/// 18 is what the step is refused by that the budget did not come to, or a later
/// one.
fn larger_budgets() -> Vec<Case> {
    let write = || set_integer(0, 9);
    let lent = |budget: u32| {
        case(format!("17, then 18, budget {budget}"), FULL)
            .blocks(&[(0, sequence(&[write(), write()])), (0, write())])
            .budget(budget)
            .journal(2)
    };
    vec![
        lent(1).refused(17, 0, 2 + write().len(), 1),
        lent(2).refused(17, 1, 0, 2),
        lent(3).refused(18, 1, 0, 2),
    ]
}

/// With an entry more the step that 18 refused is judged, or a later one. The
/// first block's write takes one entry.
fn longer_journals() -> Vec<Case> {
    let write = || set_integer(0, 9);
    let nine = || literal(integer(9));
    let of = |what: &str, region, second: &Bytes, rule, entries: usize| -> Draft {
        case(format!("18, then {what}, journal {entries}"), FULL)
            .blocks(&[(0, write()), (region, second.clone())])
            .rule(rule)
            .journal(entries)
    };
    let same_step = [
        (13, 0, assign(nine(), nine()), 0),
        (14, 0, set(1, nine()), 2),
        (15, 0, set(1, nine()), 1),
        (16, 1, set(1, slot(0)), 3),
    ];
    let same_step = same_step
        .into_iter()
        .flat_map(|(number, region, second, rule)| {
            let lent = |entries| of(&number.to_string(), region, &second, rule, entries);
            [
                lent(1).refused(18, 1, 0, 1),
                lent(2).refused(number, 1, 0, 1),
            ]
        });
    let place = 2 + write().len();
    let two = sequence(&[write(), write()]);
    let lent = |what, entries| of(what, 0, &two, 0, entries);
    let later = [
        lent("18", 1).refused(18, 1, 2, 1),
        lent("18", 2).refused(18, 1, place, 2),
        lent("0", 3).finishes(3, &[written(3, integer(9)), kept(integer(7))]),
        lent("17", 1).budget(2).refused(18, 1, 2, 1),
        lent("17", 2).budget(2).refused(17, 1, place, 2),
    ];
    same_step.chain(later).collect()
}
