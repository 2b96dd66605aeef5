//! What is judged before 18, and what 18 is judged before: each assignment stands
//! here with an entry free, and without.

use super::FULL;
use crate::case::{case, Case, Draft};
use sheets::*;

pub fn cases() -> Vec<Case> {
    let mut cases = after_17();
    cases.extend(before_wrong_kinds());
    cases.extend(before_write_views());
    cases.extend(before_authority());
    cases.extend(before_labels());
    cases.extend(before_branches());
    cases.extend(after_a_write());
    cases.extend(after_sheets_and_arguments());
    cases
}

fn nine() -> Bytes {
    literal(integer(9))
}

/// Slots 0 and 2 are principal 0's, slot 1 is above it; slot 2 holds a write view
/// of slot 1.
fn block(name: String, region: u8, code: &Bytes, rule: u32) -> Draft {
    let slots = [(0, integer(5)), (1, integer(7)), (0, write_view(1))];
    case(format!("{name}, rule {rule}"), FULL)
        .store(store(&PAIR, &slots))
        .block(region, code.clone())
        .rule(rule)
}

/// With an entry free the only assignment is refused by this number, and without
/// by 18; unless the budget is spent.
fn either(what: &str, region: u8, code: Bytes, rule: u32, number: u32) -> [Case; 3] {
    let name = |full: &str| format!("{full} {number}: {what}");
    let draft = |full, entries| block(name(full), region, &code, rule).journal(entries);
    [
        draft("with an entry", 1).refused(number, 0, 0, 0),
        draft("18 before", 0).refused(18, 0, 0, 0),
        draft("17 before 18 and", 0).budget(0).refused(17, 0, 0, 0),
    ]
}

/// "judged after 17"
fn after_17() -> Vec<Case> {
    let cases = RULES.into_iter().flat_map(|rule| {
        let lent = |budget: u32, entries: usize| {
            let name = format!("2 writes, budget {budget}, journal {entries}, rule {rule}");
            case(name, FULL)
                .blocks(&[(0, set_integer(0, 8)), (0, set_integer(0, 9))])
                .rule(rule)
                .budget(budget)
                .journal(entries)
        };
        [
            lent(0, 0).refused(17, 0, 0, 0),
            lent(1, 0).refused(18, 0, 0, 0),
            lent(0, 1).refused(17, 0, 0, 0),
            lent(1, 1).refused(17, 1, 0, 1),
            lent(2, 1).refused(18, 1, 0, 1),
            lent(1, 2).refused(17, 1, 0, 1),
            lent(2, 2).finishes(2, &[written(2, integer(9)), kept(integer(7))]),
        ]
    });
    cases.collect()
}

/// Of the target, of what it reads, of the value and its operands.
fn before_wrong_kinds() -> Vec<Case> {
    let assignments = [
        ("an integer as target", assign(nine(), nine())),
        (
            "a truth value as target",
            assign(literal(truth(true)), nine()),
        ),
        (
            "a read view as target",
            assign(literal(read_view(0)), nine()),
        ),
        ("a slot's integer as target", assign(slot(0), nine())),
        ("a sum as target", assign(sum(nine(), nine()), nine())),
        ("a target by a read of 9", assign(read(nine()), nine())),
        ("a value by a read of 9", set(0, read(nine()))),
        (
            "a value by a sum of 9 and true",
            set(0, sum(nine(), literal(truth(true)))),
        ),
    ];
    let cases = assignments.into_iter().flat_map(|(what, code)| {
        RULES
            .into_iter()
            .flat_map(move |rule| either(what, 0, code.clone(), rule, 13))
    });
    cases.collect()
}

/// Under rule 1, write views that region 0 may not hold.
fn before_write_views() -> Vec<Case> {
    let view = || literal(write_view(1));
    let assignments = [
        ("a literal target", assign(view(), nine())),
        ("a read target", assign(slot(2), nine())),
        ("a target by a read of a view", assign(read(view()), nine())),
        ("a literal value", set(0, view())),
        ("a read value", set(0, slot(2))),
        ("an operand of the value", set(0, equal(nine(), view()))),
    ];
    let cases = assignments
        .into_iter()
        .flat_map(|(what, code)| either(what, 0, code, 1, 15));
    cases.collect()
}

fn before_authority() -> Vec<Case> {
    let cases = [0, 2, 3, 255].into_iter().flat_map(|rule| {
        let literal_view = either("a slot above", 0, set(1, nine()), rule, 14);
        let through = assign(slot(2), nine());
        let read_view = either("a slot above by a view in a slot", 0, through, rule, 14);
        literal_view.into_iter().chain(read_view)
    });
    cases.collect()
}

/// Under rules 2 and 3, what comes from a low slot.
fn before_labels() -> Vec<Case> {
    let cases = [2, 3, 255].into_iter().flat_map(|rule| {
        let value = either("a low value", 1, set(1, slot(0)), rule, 16);
        let target = either("a low target", 1, assign(slot(2), nine()), rule, 16);
        value.into_iter().chain(target)
    });
    cases.collect()
}

/// Under rule 3 the label of the branch: the guard is a step, and needs no entry.
fn before_branches() -> Vec<Case> {
    let guard = || equal(slot(0), literal(integer(5)));
    let code = if_else(guard(), set(1, nine()), skip());
    let place = 1 + guard().len();
    let cases = [3, 255].into_iter().flat_map(|rule| {
        let draft = |what: &str, entries| {
            let name = format!("{what} 16: a low branch");
            block(name, 1, &code, rule).journal(entries)
        };
        [
            draft("with an entry", 1).refused(16, 0, place, 1),
            draft("18 before", 0).refused(18, 0, place, 1),
            draft("17 before 18 and", 0)
                .budget(1)
                .refused(17, 0, place, 1),
        ]
    });
    cases.collect()
}

/// The same of a second assignment, where the first one filled the journal.
fn after_a_write() -> Vec<Case> {
    let first = set_integer(0, 8);
    let place = 2 + first.len();
    let assignments = [
        ("13", 0, assign(nine(), nine()), 0, 13),
        ("13", 0, set(0, read(nine())), 3, 13),
        ("14", 0, set(1, nine()), 0, 14),
        ("15", 0, set(1, nine()), 1, 15),
        ("16", 1, set(1, slot(0)), 2, 16),
        ("16", 1, set(1, slot(0)), 3, 16),
    ];
    let cases = assignments
        .into_iter()
        .flat_map(|(what, region, second, rule, number)| {
            let code = sequence(&[first.clone(), second]);
            let lent = |entries: usize| {
                let name = format!("a write, then {what}, journal {entries}");
                block(name, region, &code, rule).journal(entries)
            };
            [
                lent(2).refused(number, 0, place, 1),
                lent(1).refused(18, 0, place, 1),
                lent(0).refused(18, 0, 2, 0),
            ]
        });
    cases.collect()
}

/// "Order: 11; store [..]; programme [..]; 9 or 10 in byte order; 12; run": all of
/// it comes before 18.
fn after_sheets_and_arguments() -> Vec<Case> {
    let write = || (0, set_integer(0, 9));
    let full = |name| case(name, FULL).blocks(&[write()]).journal(0);
    let bad_value = store(&[1], &[(0, value(4, 0))]);
    let late = |code| [write(), (0, code)];
    let deep = while_do(reads(9, 0), skip());
    vec![
        full("11 before 18: a rule").rule(4).refused_early(11),
        full("11 before 18: a budget")
            .budget(1_000_001)
            .refused_early(11),
        full("1 before 18").store(vec![]).refused_early(1),
        full("5 before 18").store(bad_value).refused_early(5),
        full("6 before 18").programme(vec![]).refused_early(6),
        full("8 before 18")
            .blocks(&[write(), (2, skip())])
            .refused_early(8),
        full("9 before 18")
            .blocks(&late(vec![0x21]))
            .refused(9, 1, 1, 0),
        full("10 before 18")
            .blocks(&late(deep))
            .refused(10, 1, 1 + 8, 0),
        full("12 before 18").output(0).refused_early(12),
    ]
}
