//! What operations are refused for in a step (13 and 15), and in which order.

use super::{name_of, number};
use crate::case::{case, Case, Draft};
use sheets::*;

pub fn cases() -> Vec<Case> {
    let mut cases = kinds();
    cases.extend(kinds_wait());
    cases.extend(left_first());
    cases.extend(write_views());
    cases.extend(order_in_a_step());
    cases.extend(budget_first());
    cases.extend(places());
    cases
}

const ORDER: &str =
    "The left one is evaluated first, then the right; then kinds are judged, by 13.";

/// Slots 0 and 2 are principal 0's, slot 1 is above it; slot 2 holds a write view
/// of slot 1.
fn slots() -> [Bytes; 3] {
    [integer(5), integer(7), write_view(1)]
}

/// One block over those slots.
fn block(name: impl Into<String>, region: u8, code: Bytes, rule: u32) -> Draft {
    let owned = [0, 1, 0].into_iter().zip(slots());
    let owned: Vec<(u8, Bytes)> = owned.collect();
    case(name, ORDER)
        .store(store(&PAIR, &owned))
        .block(region, code)
        .rule(rule)
}

/// A block of region 0 that puts an operation's result into its own slot.
fn put(name: impl Into<String>, expression: Bytes, rule: u32) -> Draft {
    block(name, 0, set(0, expression), rule)
}

/// The first step is refused by this number.
fn at_once(draft: Draft, number: u32) -> Case {
    draft.refused(number, 0, 0, 0)
}

/// What region 0 may not hold under rule 1, in the words of the names.
fn forbidden() -> Bytes {
    literal(write_view(1))
}

/// A read of an integer.
fn misread() -> Bytes {
    read(number(0))
}

/// One value of each kind, of a region that may hold them all: all but `equal`
/// need two integers, whatever the rule.
fn kinds() -> Vec<Case> {
    let value_of = |kind| literal(value(kind, 1));
    let pairs = (0..4).flat_map(|left| (0..4).map(move |right| (left, right)));
    let cases = pairs.flat_map(|(left, right)| {
        OPERATIONS.map(|byte| {
            let name = format!("{} of kinds {left} and {right}", name_of(byte));
            let expression = operation(byte, value_of(left), value_of(right));
            let draft = block(name, 1, set(0, expression), 1);
            let result = match byte {
                SUM => integer(2),
                DIFFERENCE => integer(0),
                LESS_THAN => truth(false),
                _ => truth(left == right),
            };
            if byte == EQUAL || (left, right) == (0, 0) {
                let [_, high, view] = slots();
                draft.finishes(1, &[once(result), kept(high), kept(view)])
            } else {
                at_once(draft, 13)
            }
        })
    });
    cases.collect()
}

/// A left operand of a wrong kind waits for what the right one meets.
fn kinds_wait() -> Vec<Case> {
    let wrong = || literal(truth(true));
    let cases = OPERATIONS.into_iter().flat_map(|byte| {
        let name = name_of(byte);
        let put = |what: &str, left, right, rule| {
            let expression = operation(byte, left, right);
            put(format!("{name} of {what}, rule {rule}"), expression, rule)
        };
        let view = "true and a forbidden write view";
        let both = put(view, wrong(), forbidden(), 0);
        let end = [once(truth(false)), kept(integer(7)), kept(write_view(1))];
        let both = match byte {
            EQUAL => both.finishes(1, &end),
            _ => at_once(both, 13),
        };
        [
            both,
            at_once(put(view, wrong(), forbidden(), 1), 15),
            at_once(
                put(
                    "true and a slot's forbidden write view",
                    wrong(),
                    slot(2),
                    1,
                ),
                15,
            ),
            at_once(
                put("a forbidden write view and true", forbidden(), wrong(), 1),
                15,
            ),
            at_once(
                put("true and a read of an integer", wrong(), misread(), 1),
                13,
            ),
        ]
    });
    cases.collect()
}

/// Both operands are refused: the left one's refusal is told, also where it is
/// deeper.
fn left_first() -> Vec<Case> {
    let cases = OPERATIONS.into_iter().flat_map(|byte| {
        let name = name_of(byte);
        let put = |what: &str, left, right| {
            put(format!("{name} of {what}"), operation(byte, left, right), 1)
        };
        let deep = |inner| sum(number(1), sum(inner, number(2)));
        [
            at_once(put("13 and 15", misread(), forbidden()), 13),
            at_once(put("15 and 13", forbidden(), misread()), 15),
            at_once(put("a deep 13 and 15", deep(misread()), forbidden()), 13),
            at_once(put("13 and a deep 15", misread(), deep(forbidden())), 13),
            at_once(put("a deep 15 and 13", deep(forbidden()), misread()), 15),
            at_once(put("15 and a deep 13", forbidden(), deep(misread())), 15),
        ]
    });
    cases.collect()
}

/// "Rule 1 [..]: each literal and each read result, intermediate ones too":
/// operands of `equal` are judged as well, though it would take any kind.
fn write_views() -> Vec<Case> {
    let [_, high, view] = slots();
    let compared = || equal(slot(2), forbidden());
    let after = |result| [once(truth(result)), kept(high.clone()), kept(view.clone())];
    let own = || literal(write_view(0));
    vec![
        put("equal of two forbidden views, rule 0", compared(), 0).finishes(1, &after(true)),
        at_once(
            put("equal of two forbidden views, rule 1", compared(), 1),
            15,
        ),
        put("equal of two forbidden views, rule 3", compared(), 3).finishes(1, &after(true)),
        block("equal of views by a region above", 1, set(0, compared()), 1)
            .finishes(1, &after(true)),
        at_once(
            block("equal of views, endorsed", 0x80, set(0, compared()), 1),
            15,
        ),
        put("equal of own views, rule 1", equal(own(), own()), 1).finishes(1, &after(true)),
        at_once(
            put("equal of an own view and another", equal(own(), slot(2)), 1),
            15,
        ),
        put(
            "equal of an own view and a read view",
            equal(own(), literal(read_view(0))),
            1,
        )
        .finishes(1, &after(false)),
    ]
}

/// A target's operands are judged before its kind, and a value's operation
/// before 14 and 16.
fn order_in_a_step() -> Vec<Case> {
    let wrong = || sum(literal(truth(true)), number(1));
    let forbidden_sum = || sum(number(1), forbidden());
    let code = |name, code, rule| block(name, 0, code, rule);
    let mut cases = vec![
        at_once(
            code(
                "a target's operand by 15",
                assign(forbidden_sum(), number(1)),
                1,
            ),
            15,
        ),
        at_once(
            code(
                "a target's 13 before a value's 15",
                assign(wrong(), forbidden()),
                1,
            ),
            13,
        ),
        at_once(
            code(
                "a target's 15 before a value's wrong sum",
                assign(forbidden(), wrong()),
                1,
            ),
            15,
        ),
        at_once(
            code(
                "a guard's operand by 15",
                while_do(forbidden_sum(), skip()),
                1,
            ),
            15,
        ),
    ];
    for rule in [0, 2, 3, 255] {
        let name = format!("a wrong sum before 14, rule {rule}");
        cases.push(at_once(block(name, 0, set(1, wrong()), rule), 13));
    }
    for rule in [2, 3, 255] {
        let low = sum(slot(0), literal(truth(true)));
        let name = format!("a wrong sum before 16, rule {rule}");
        cases.push(at_once(block(name, 1, set(1, low), rule), 13));
    }
    cases
}

/// Nothing is judged of a step for which there is no budget.
fn budget_first() -> Vec<Case> {
    let wrong = || sum(literal(truth(true)), number(1));
    let says = "Before each step, if steps done equal the budget, the run is spent.";
    let cases = RULES.into_iter().flat_map(|rule| {
        let spent = |what: &str, code| {
            case(format!("17 before {what}, rule {rule}"), says)
                .block(0, code)
                .rule(rule)
                .budget(0)
                .refused(17, 0, 0, 0)
        };
        [
            spent("a wrong sum", set(0, wrong())),
            spent("a wrong sum as guard", while_do(wrong(), skip())),
            spent("a forbidden operand", set(0, equal(forbidden(), number(1)))),
        ]
    });
    cases.collect()
}

/// "block and offset of the command's first byte in its block", wherever in the
/// command the operand stands, and after the steps done.
fn places() -> Vec<Case> {
    let says = "block and offset of the command's first byte in its block";
    let own = || set_integer(0, 9);
    let wrong = set(0, difference(number(1), less_than(number(1), number(2))));
    let to_truth = while_do(
        less_than(slot(0), number(9)),
        set(0, equal(slot(0), number(5))),
    );
    vec![
        case("a wrong difference in a sequence", says)
            .block(0, sequence(&[skip(), wrong.clone()]))
            .refused(13, 0, 3, 0),
        case("a wrong difference in the second block", says)
            .blocks(&[(0, own()), (0, sequence(&[own(), wrong]))])
            .refused(13, 1, 2 + own().len(), 2),
        case(
            "an operand's kind changes",
            "A while whose guard is true runs its body and judges again.",
        )
        .block(0, to_truth)
        .refused(13, 0, 0, 2),
    ]
}
