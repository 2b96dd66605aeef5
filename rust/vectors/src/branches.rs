//! The label of the branch, under rule 3. The refusal is 16.

use crate::case::{case, Case, Draft};
use crate::labels::{high_block, low_slot};
use sheets::*;

pub fn cases() -> Vec<Case> {
    let mut cases = if_parts();
    cases.extend(bodies());
    cases.extend(after_parts());
    cases.extend(after_inner_parts());
    cases.extend(nested_parts());
    cases.extend(crossed_parts());
    cases.extend(rounds());
    cases.extend(outer_in_rounds());
    cases
}

const BRANCH: &str =
    "Inside an if-part or a while body it is the meet of the outer one and the guard's label";
const BACK: &str =
    "after the part, or after each round before judging again, the outer one is back";

/// A guard of one read, with the command's byte before it.
const HEAD: usize = 1 + 1 + LITERAL;

/// A block of region 1 over those slots, slot 0 holding this truth value.
fn on_flag(name: &str, flag: bool, code: &Bytes, rule: u32) -> Draft {
    high_block(name, BRANCH, truth(flag), code.clone()).rule(rule)
}

/// The branch's label is judged under rule 3 only, and only at assignments.
fn if_parts() -> Vec<Case> {
    let parts = if_else(slot(0), set_integer(1, 41), set_integer(1, 42));
    let else_part = HEAD + set_integer(1, 41).len();
    let low = if_else(slot(0), set_integer(0, 9), skip());
    let on_high = if_else(slot(2), set_integer(1, 9), skip());
    let high_flag = store(&PAIR, &[(0, integer(5)), (1, integer(7)), (1, truth(true))]);
    vec![
        on_flag("then-part on a low guard", true, &parts, 3).refused(16, 0, HEAD, 1),
        on_flag("else-part on a low guard", false, &parts, 3).refused(16, 0, else_part, 1),
        on_flag("else-part on a low guard, rule 2", false, &parts, 2).finishes(
            2,
            &[kept(truth(false)), once(integer(42)), kept(integer(8))],
        ),
        on_flag("low slot on a low guard", true, &low, 3)
            .finishes(2, &[once(integer(9)), kept(integer(7)), kept(integer(8))]),
        case("high slot on a high guard", BRANCH)
            .store(high_flag)
            .block(1, on_high)
            .rule(3)
            .finishes(2, &[kept(integer(5)), once(integer(9)), kept(truth(true))]),
    ]
}

/// The same for a while's body.
fn bodies() -> Vec<Case> {
    let commands = [set_integer(1, 9), set(0, literal(truth(false)))];
    let body = while_do(slot(0), sequence(&commands));
    vec![
        on_flag("body on a low guard", true, &body, 3).refused(16, 0, HEAD + 2, 1),
        on_flag("body on a low guard, rule 2", true, &body, 2)
            .finishes(4, &[once(truth(false)), once(integer(9)), kept(integer(8))]),
        on_flag("body not run on a low guard", false, &body, 3)
            .finishes(1, &[truth(false), integer(7), integer(8)].map(kept)),
    ]
}

/// The misreading "leaving a while body's label behind".
fn after_parts() -> Vec<Case> {
    let one_round = while_do(slot(0), set(0, literal(truth(false))));
    let part = if_else(slot(0), skip(), skip());
    let block = |name, low: bool, code| high_block(name, BACK, truth(low), code).rule(3);
    let up = || set_integer(1, 9);
    let end = |low| [low, once(integer(9)), kept(integer(8))];
    vec![
        block("after a while", true, sequence(&[one_round.clone(), up()]))
            .finishes(4, &end(once(truth(false)))),
        block(
            "after a while that did not run",
            false,
            sequence(&[one_round.clone(), up()]),
        )
        .finishes(2, &end(kept(truth(false)))),
        block("after a then-part", true, sequence(&[part.clone(), up()]))
            .finishes(2, &end(kept(truth(true)))),
        block("after an else-part", false, sequence(&[part, up()]))
            .finishes(2, &end(kept(truth(false)))),
        case("in the next block", "It is top at a block's start.")
            .store(low_slot(truth(true)))
            .blocks(&[(1, one_round), (1, up())])
            .rule(3)
            .finishes(4, &end(once(truth(false)))),
    ]
}

/// The same inside another part: the outer one that is back is that part's. A low
/// if or while stands in a part on a high guard, slot 2, and before a write to
/// slot 1; or in a part on a low guard.
fn after_inner_parts() -> Vec<Case> {
    let slots = |low| [(0, truth(low)), (1, integer(7)), (1, truth(true))];
    let block = |name, code| {
        case(name, BACK)
            .store(store(&PAIR, &slots(true)))
            .block(1, code)
            .rule(3)
    };
    let low_if = || if_else(slot(0), skip(), skip());
    let low_while = while_do(slot(0), set(0, literal(truth(false))));
    let then_up = |part| sequence(&[part, set_integer(1, 9)]);
    let off = set(2, literal(truth(false)));
    let high_rounds = sequence(&[low_while, set_integer(1, 9), off]);
    let in_low = if_else(slot(0), then_up(low_if()), skip());
    let after_if = HEAD + 2 + low_if().len();
    vec![
        block(
            "after a low if in a high part",
            if_else(slot(2), then_up(low_if()), skip()),
        )
        .finishes(3, &[kept(truth(true)), once(integer(9)), kept(truth(true))]),
        block("after a low if in a low part", in_low).refused(16, 0, after_if, 2),
        block(
            "after a low while in a high body",
            while_do(slot(2), high_rounds),
        )
        .finishes(7, &[truth(false), integer(9), truth(false)].map(once)),
    ]
}

/// The misreading "dropping the outer one inside nested parts": a part on a
/// literal's guard, inside one on a low guard.
fn nested_parts() -> Vec<Case> {
    let yes = || literal(truth(true));
    let up = || set_integer(1, 9);
    let block = |name, inner| {
        high_block(name, BRANCH, truth(true), if_else(slot(0), inner, skip())).rule(3)
    };
    let then_inside = if_else(yes(), up(), skip());
    let else_inside = if_else(literal(truth(false)), skip(), up());
    let body_inside = while_do(yes(), up());
    let after_inside = sequence(&[if_else(yes(), skip(), skip()), up()]);
    let inner = HEAD + 1 + LITERAL;
    vec![
        block("outer label in a then-part", then_inside).refused(16, 0, inner, 2),
        block("outer label in an else-part", else_inside).refused(16, 0, inner + 1, 2),
        block("outer label in a body", body_inside).refused(16, 0, inner, 2),
        block("outer label after a nested part", after_inside).refused(
            16,
            0,
            HEAD + 2 + 1 + LITERAL + 2,
            2,
        ),
    ]
}

/// Ifs inside each other on the guards of these principals of the diamond, each
/// guard true, and in the last then-part a write to the slot of `to`, all by the
/// top. Slot i is principal i's truth value, slot 4 + i its integer.
fn on_guards(name: &str, guards: &[u8], to: u8) -> Draft {
    let owners = [LEFT, RIGHT, BOTTOM, TOP];
    let truths = owners.map(|owner| (owner, truth(true)));
    let integers = owners.map(|owner| (owner, integer(0)));
    let write = set_integer(4 + i64::from(to), 3);
    let outwards = guards.iter().rev();
    let code = outwards.fold(write, |part, guard| {
        if_else(slot(i64::from(*guard)), part, skip())
    });
    case(name, BRANCH)
        .store(store(&DIAMOND, &[truths, integers].concat()))
        .block(TOP, code)
        .rule(3)
}

/// The branch's label is the meet of all guards around. Of left's and right's
/// that is the bottom: left's alone would let left's slot be written.
fn crossed_parts() -> Vec<Case> {
    let refused = |name, guards: &[u8], to| {
        let steps = guards.len() as u32;
        on_guards(name, guards, to).refused(16, 0, guards.len() * HEAD, steps)
    };
    let passes = |name, guards: &[u8], to: u8| {
        let mut end = [vec![kept(truth(true)); 4], vec![kept(integer(0)); 4]].concat();
        end[4 + usize::from(to)] = once(integer(3));
        on_guards(name, guards, to).finishes(guards.len() as u32 + 1, &end)
    };
    vec![
        refused("left's, right's: left's slot", &[LEFT, RIGHT], LEFT),
        refused("left's, right's: right's slot", &[LEFT, RIGHT], RIGHT),
        passes("left's, right's: bottom's slot", &[LEFT, RIGHT], BOTTOM),
        refused("right's, left's: left's slot", &[RIGHT, LEFT], LEFT),
        refused("right's, left's: right's slot", &[RIGHT, LEFT], RIGHT),
        passes("right's, left's: bottom's slot", &[RIGHT, LEFT], BOTTOM),
        passes("left's, top's: left's slot", &[LEFT, TOP], LEFT),
        refused("left's, top's: right's slot", &[LEFT, TOP], RIGHT),
        refused("left's, top's: top's slot", &[LEFT, TOP], TOP),
        passes("top's, left's: left's slot", &[TOP, LEFT], LEFT),
        refused("top's, left's: right's slot", &[TOP, LEFT], RIGHT),
        refused("top's, left's: top's slot", &[TOP, LEFT], TOP),
        passes("top's twice: top's slot", &[TOP, TOP], TOP),
        refused(
            "bottom's, top's twice: left's slot",
            &[BOTTOM, TOP, TOP],
            LEFT,
        ),
    ]
}

/// Each round is judged anew. In the first case slot 1, high, shows slot 2, high,
/// and after a round slot 0, low: the second round's label is low. In the second
/// two rounds on a high guard end in an if on a low one: were its label left
/// behind, the second round could not write.
fn rounds() -> Vec<Case> {
    let judged = "A while whose guard is true runs its body and judges again.";
    let shown = [(0, truth(true)), (1, read_view(2)), (1, truth(true))];
    let lowered = while_do(reads(2, 1), set(1, literal(read_view(0))));
    let flags = [(1, truth(true)), (1, truth(true)), (0, truth(true))];
    let body = sequence(&[
        set(0, slot(1)),
        set(1, literal(truth(false))),
        if_else(slot(2), skip(), skip()),
    ]);
    let twice = || written(2, truth(false));
    vec![
        case("the second round's label", judged)
            .store(store(&PAIR, &shown))
            .block(1, lowered)
            .rule(3)
            .refused(16, 0, 1 + 2 + LITERAL, 3),
        case("a low if at the end of each round", BACK)
            .store(store(&PAIR, &flags))
            .block(1, while_do(slot(0), body))
            .rule(3)
            .finishes(9, &[twice(), twice(), kept(truth(true))]),
    ]
}

/// Rounds on a literal's guard, inside a part on a low one: in each of them a low
/// slot may be written, and in none a high one.
fn outer_in_rounds() -> Vec<Case> {
    let slots = [(0, truth(true)), (0, integer(7)), (1, integer(8))];
    let inside = |name, target| {
        let rounds = while_do(literal(truth(true)), set_integer(target, 9));
        case(name, BRANCH)
            .store(store(&PAIR, &slots))
            .block(1, if_else(slot(0), rounds, skip()))
            .rule(3)
    };
    vec![
        inside("low rounds in a low part", 1)
            .budget(7)
            .refused(17, 0, HEAD, 7),
        inside("high rounds in a low part", 2).refused(16, 0, HEAD + 1 + LITERAL, 2),
    ]
}
