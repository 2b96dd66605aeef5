//! Steps that are forbidden, and where: 13, 14 and 17, and the order in which a
//! step is judged. Those of 15 stand in `views`, those of 16 in `labels` and
//! `branches`, those of 18 in `journals`.
//!
//! No number from 1 to 18 is without a case. Some cannot come up under some
//! rules: 14 under rule 1, which judges write views instead; 15 under the
//! others; 16 under rules 0 and 1, which judge no labels.

use crate::case::{case, Case, Draft};
use sheets::*;

pub fn cases() -> Vec<Case> {
    let mut cases = wrong_kinds();
    cases.extend(right_kinds());
    cases.extend(kinds_in_a_run());
    cases.extend(authority());
    cases.extend(order_in_a_step());
    cases.extend(budget_first());
    cases.extend(spent());
    cases.extend(counted());
    cases.extend(present_values());
    cases
}

/// Slots 0 to 3 hold one value of each kind; all are principal 0's.
fn kinds_store() -> Bytes {
    let kinds = [integer(5), truth(true), read_view(0), write_view(0)];
    store(&PAIR, &kinds.map(|value| (0, value)))
}

/// A block of region 0 over those slots, under each rule.
fn by_rule(name: &str, code: Bytes) -> [Draft; RULES.len()] {
    RULES.map(|rule| {
        let says = "13 wrong kind for a guard, read or target";
        case(format!("{name}, rule {rule}"), says)
            .store(kinds_store())
            .block(0, code.clone())
            .rule(rule)
    })
}

/// What is wrong whatever the rule; each view here is of an own slot.
fn wrong_kinds() -> Vec<Case> {
    let if_of = |guard| if_else(guard, skip(), skip());
    let while_of = |guard| while_do(guard, skip());
    let set_to = |target| assign(target, literal(integer(1)));
    let set_by = |view| set(0, read(view));
    let commands = [
        ("if of an integer", if_of(literal(integer(1)))),
        ("if of a read view", if_of(literal(read_view(1)))),
        ("while of a write view", while_of(literal(write_view(0)))),
        ("while of a slot's integer", while_of(slot(0))),
        ("if of a slot's read view", if_of(slot(2))),
        ("while of a slot's write view", while_of(slot(3))),
        ("read of an integer", set_by(literal(integer(0)))),
        ("read of a truth value", set_by(literal(truth(false)))),
        ("read of a write view", set_by(literal(write_view(0)))),
        ("read of a slot's integer", set_by(slot(0))),
        ("read of a slot's truth value", set_by(slot(1))),
        ("read of a slot's write view", set_by(slot(3))),
        ("assignment to an integer", set_to(literal(integer(0)))),
        ("assignment to a truth value", set_to(literal(truth(true)))),
        ("assignment to a read view", set_to(literal(read_view(0)))),
        ("assignment to a slot's integer", set_to(slot(0))),
        ("assignment to a slot's truth value", set_to(slot(1))),
        ("assignment to a slot's read view", set_to(slot(2))),
    ];
    let commands = commands.into_iter();
    let blocks = commands.flat_map(|(name, code)| by_rule(name, code));
    blocks.map(|block| block.refused(13, 0, 0, 0)).collect()
}

/// A slot's own value as what it is.
fn right_kinds() -> Vec<Case> {
    let read_through = set(1, read(slot(2)));
    let written_through = assign(slot(3), literal(integer(1)));
    let guarded = while_do(slot(1), set(1, literal(truth(false))));
    let end = |first, second| {
        let views = [read_view(0), write_view(0)].map(kept);
        [vec![first, second], views.into()].concat()
    };
    let read = end(kept(integer(5)), once(integer(5)));
    let through = end(once(integer(1)), kept(truth(true)));
    let judged = end(kept(integer(5)), once(truth(false)));
    let commands = [
        ("a slot's read view is read", read_through, 1, read),
        (
            "a slot's write view is written",
            written_through,
            1,
            through,
        ),
        ("a slot's truth value is a guard", guarded, 3, judged),
    ];
    let cases = commands.into_iter().flat_map(|(name, code, steps, end)| {
        by_rule(name, code).map(|block| block.finishes(steps, &end))
    });
    cases.collect()
}

const PLACED: &str = "block and offset of the command's first byte in its block";

/// A refusal is placed at its command's first byte, after the steps done.
fn kinds_in_a_run() -> Vec<Case> {
    let wrong = || if_else(literal(integer(1)), skip(), skip());
    let own = || set_integer(0, 9);
    let to_integer = while_do(slot(0), own());
    let flag = store(&PAIR, &[(0, truth(true)), (1, integer(7))]);
    let no_target = assign(literal(integer(0)), literal(integer(0)));
    let choice = if_else(literal(truth(false)), skip(), no_target);
    let deep = sequence(&[skip(), while_do(literal(truth(true)), choice)]);
    // After 22, a count and a skip: a while and an if, each a byte and a
    // literal guard, and the if's then-part.
    let place = 3 + (1 + LITERAL) + (1 + LITERAL) + 1;
    vec![
        case("13 in a sequence", PLACED)
            .block(0, sequence(&[skip(), wrong()]))
            .refused(13, 0, 3, 0),
        case("13 in the second block", PLACED)
            .blocks(&[(0, own()), (0, sequence(&[own(), wrong()]))])
            .refused(13, 1, 2 + own().len(), 2),
        case("13 deep in the third block", PLACED)
            .blocks(&[(0, own()), (0, skip()), (0, deep)])
            .refused(13, 2, place, 3),
        case(
            "a guard's kind changes",
            "A while whose guard is true runs its body and judges again.",
        )
        .store(flag)
        .block(0, to_integer)
        .refused(13, 0, 0, 2),
    ]
}

/// Slot i is owned by principal i of the diamond and holds i.
fn diamond_values() -> [Bytes; 4] {
    [0, 1, 2, 3].map(integer)
}

/// Who may write whose slot, under each rule. Rule 1 refuses the write view
/// instead. Every floor is the bottom.
fn authority() -> Vec<Case> {
    let owners = [LEFT, RIGHT, BOTTOM, TOP];
    let slots: Vec<(u8, Bytes)> = owners.into_iter().zip(diamond_values()).collect();
    let writes = |name, region, target: usize, rule: u32| {
        let says = "Rule 0, access control: the region must be at or above the slot's owner.";
        case(format!("{name}, rule {rule}"), says)
            .store(store(&DIAMOND, &slots))
            .floored(region, BOTTOM, set_integer(target as i64, 9))
            .rule(rule)
    };
    let may = [
        ("left writes left", LEFT, 0),
        ("left writes bottom", LEFT, 2),
        ("right writes right", RIGHT, 1),
        ("top writes right", TOP, 1),
    ];
    let may_not = [
        ("left writes right, unrelated", LEFT, 1),
        ("right writes left, unrelated", RIGHT, 0),
        ("left writes top", LEFT, 3),
        ("bottom writes left, above it", BOTTOM, 0),
        ("endorsed left writes top", 0x80 | LEFT, 3),
    ];
    let mut cases = Vec::new();
    for rule in RULES {
        cases.extend(may.map(|(name, region, target)| {
            let mut end = diamond_values().map(kept);
            end[target] = once(integer(9));
            writes(name, region, target, rule).finishes(1, &end)
        }));
        let number = if rule == 1 { 15 } else { 14 };
        cases.extend(may_not.map(|(name, region, target)| {
            writes(name, region, target, rule).refused(number, 0, 0, 0)
        }));
    }
    let after = sequence(&[skip(), set_integer(1, 9)]);
    let late = case("14 after steps", "A forbidden step is not counted.");
    let late = late.blocks(&[(0, set_integer(0, 1)), (0, after)]);
    cases.push(late.refused(14, 1, 3, 1));
    cases
}

/// "In a step: 17, then the guard, or the target and then the value, each
/// worked from its literal outwards (15 before 13 at each stage), then 14, then
/// 16."
fn order_in_a_step() -> Vec<Case> {
    let order = "In a step: 17, then the guard, or the target and then the value";
    let no_target = literal(integer(0));
    let no_value = || read(literal(integer(0)));
    let high = || literal(write_view(1));
    let step = |name: String, code, rule| case(name, order).block(0, code).rule(rule);
    let under_1 = |name: &str, code| step(name.into(), code, 1);
    let mut cases = vec![
        under_1("target's 13 before value's 15", assign(no_target, high())).refused(13, 0, 0, 0),
        under_1("target's 15 before value's 13", assign(high(), no_value())).refused(15, 0, 0, 0),
        under_1("value's own 13", set(0, no_value())).refused(13, 0, 0, 0),
    ];
    for rule in [0, 2, 3, 255] {
        let name = format!("value's 13 before 14, rule {rule}");
        cases.push(step(name, assign(high(), no_value()), rule).refused(13, 0, 0, 0));
    }
    for rule in [2, 3, 255] {
        let name = format!("14 before 16, rule {rule}");
        cases.push(step(name, assign(high(), slot(0)), rule).refused(14, 0, 0, 0));
    }
    cases
}

/// Nothing is judged of a step for which there is no budget.
fn budget_first() -> Vec<Case> {
    let high = || literal(write_view(1));
    let none = || literal(integer(0));
    let commands = [
        ("17 before a target's kind", assign(none(), none())),
        ("17 before a target's write view", assign(high(), none())),
        ("17 before a guard's kind", while_do(none(), skip())),
        (
            "17 before a guard's write view",
            if_else(high(), skip(), skip()),
        ),
        ("17 before a read's kind", set(0, read(none()))),
        ("17 before authority", set_integer(1, 9)),
    ];
    let cases = commands.into_iter().flat_map(|(name, code)| {
        RULES.map(|rule| {
            let says = "Before each step, if steps done equal the budget, the run is spent.";
            case(format!("{name}, rule {rule}"), says)
                .block(0, code.clone())
                .rule(rule)
                .budget(0)
                .refused(17, 0, 0, 0)
        })
    });
    cases.collect()
}

/// A spent run is placed at the command whose step is next: in the second block,
/// after 22, a count and one assignment.
fn spent() -> Vec<Case> {
    let first = set_integer(0, 1);
    let place = 2 + first.len();
    let yes = || literal(truth(true));
    let next = [
        ("an assignment", set_integer(0, 2)),
        ("a while", while_do(yes(), skip())),
        ("an if", if_else(yes(), skip(), skip())),
    ];
    let cases = next.into_iter().map(|(name, command)| {
        let code = sequence(&[first.clone(), command]);
        case(format!("spent before {name}"), PLACED)
            .blocks(&[(0, skip()), (0, code)])
            .budget(1)
            .refused(17, 1, place, 1)
    });
    cases.collect()
}

/// One round: guard, body, guard. Two rounds of two assignments: guard, body,
/// guard, body, guard.
fn counted() -> Vec<Case> {
    let says = "A step is one guard judged or one assignment made; nothing else counts.";
    let flags = store(&[1], &[(0, truth(true)), (0, truth(true))]);
    let off = || literal(truth(false));
    let with = |steps: u32, budget: u32, code| {
        case(format!("{steps} steps, budget {budget}"), says)
            .store(flags.clone())
            .block(0, code)
            .rule(3)
            .budget(budget)
    };
    let one = |budget| with(3, budget, while_do(slot(0), set(0, off())));
    let two = |budget| {
        let body = sequence(&[set(0, slot(1)), set(1, off())]);
        with(7, budget, while_do(slot(0), body))
    };
    let body = 1 + 1 + LITERAL;
    vec![
        one(1).refused(17, 0, body, 1),
        one(2).refused(17, 0, 0, 2),
        one(3).finishes(3, &[once(truth(false)), kept(truth(true))]),
        two(4).refused(17, 0, body + 2, 4),
        two(6).refused(17, 0, 0, 6),
        two(7).finishes(7, &[written(2, truth(false)), written(2, truth(false))]),
    ]
}

fn present_values() -> Vec<Case> {
    let copies = sequence(&[set_integer(0, 8), set(1, slot(0)), set(0, slot(0))]);
    let choice = |name, holds, end| {
        let (then_part, else_part) = (set_integer(0, 41), set_integer(0, 42));
        case(name, "23 if, guard, then-part, else-part")
            .block(0, if_else(literal(truth(holds)), then_part, else_part))
            .rule(3)
            .finishes(2, &[once(integer(end)), kept(integer(7))])
    };
    vec![
        case(
            "a read of what was just written",
            "a read needs a read view and gives that slot's present value",
        )
        .block(1, copies)
        .finishes(3, &[written(2, integer(8)), once(integer(8))]),
        choice("an if of true", true, 41),
        choice("an if of false", false, 42),
    ]
}
