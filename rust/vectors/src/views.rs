//! Write views under rule 1 (15), and read views under every rule.

use crate::case::{case, Case, Draft};
use sheets::*;

pub fn cases() -> Vec<Case> {
    let mut cases = literals();
    cases.extend(read_results());
    cases.extend(not_judged());
    cases.extend(by_a_region_above());
    cases.extend(read_views());
    cases
}

const CAPABILITY: &str = "each literal and each read result, intermediate ones too, \
    that is a write view must have an owner at or below the region";

/// Slot 0 holds a write view of slot 1, which is above it; slot 2 is another of
/// principal 0's.
fn slots() -> [Bytes; 3] {
    [write_view(1), integer(7), integer(8)]
}

/// A block over those slots.
fn block(name: impl Into<String>, region: u8, code: Bytes, rule: u32) -> Draft {
    let owned = [0, 1, 0].into_iter().zip(slots());
    let owned: Vec<(u8, Bytes)> = owned.collect();
    case(name, CAPABILITY)
        .store(store(&PAIR, &owned))
        .block(region, code)
        .rule(rule)
}

/// A block of region 0 under rule 1.
fn low(name: &str, code: Bytes) -> Draft {
    block(name, 0, code, 1)
}

/// A literal view, wherever it stands; endorsed blocks are judged alike.
fn literals() -> Vec<Case> {
    let view = || literal(write_view(1));
    let codes = [
        ("a literal target", assign(view(), literal(integer(1)))),
        ("a literal value", set(2, view())),
        ("a literal while's guard", while_do(view(), skip())),
        ("a literal if's guard", if_else(view(), skip(), skip())),
        ("a literal that is read", set(2, read(view()))),
    ];
    let cases = codes.into_iter().flat_map(|(what, code)| {
        let endorsed = format!("15 by {what}, endorsed");
        [
            block(format!("15 by {what}"), 0, code.clone(), 1).refused(15, 0, 0, 0),
            block(endorsed, 0x80, code, 1).refused(15, 0, 0, 0),
        ]
    });
    let unrelated = case("15 by an unrelated owner's write view", CAPABILITY)
        .store(store(&DIAMOND, &[(LEFT, integer(0)), (RIGHT, integer(1))]))
        .block(LEFT, set(0, literal(write_view(1))))
        .rule(1)
        .refused(15, 0, 0, 0);
    cases.chain([unrelated]).collect()
}

/// The view that slot 0 holds. Where it is itself read, 15 is judged before its
/// kind is.
fn read_results() -> Vec<Case> {
    let through = || assign(slot(0), literal(integer(9)));
    let after = sequence(&[set_integer(2, 9), through()]);
    vec![
        low("15 by a read target", through()).refused(15, 0, 0, 0),
        low("15 by a read value", set(2, slot(0))).refused(15, 0, 0, 0),
        low("15 by a read while's guard", while_do(slot(0), skip())).refused(15, 0, 0, 0),
        low("15 by a read if's guard", if_else(slot(0), skip(), skip())).refused(15, 0, 0, 0),
        low("15 by a read result that is read", set(2, reads(2, 0))).refused(15, 0, 0, 0),
        low(
            "15 by a read result that is read in a guard",
            while_do(reads(2, 0), skip()),
        )
        .refused(15, 0, 0, 0),
        low("15 in a sequence after a step", after).refused(15, 0, 2 + set_integer(2, 9).len(), 1),
        block("13 where rule 0 meets it", 0, set(2, reads(2, 0)), 0).refused(13, 0, 0, 0),
        block(
            "13 where rule 0 meets a literal that is read",
            0,
            set(2, read(literal(write_view(1)))),
            0,
        )
        .refused(13, 0, 0, 0),
        block("14 by a read target", 0, through(), 0).refused(14, 0, 0, 0),
    ]
}

/// Views that nothing reads, and views of own slots.
fn not_judged() -> Vec<Case> {
    let [view, high, own] = slots();
    let own_view = literal(write_view(2));
    vec![
        low("no 15 for what is not read", set_integer(2, 9)).finishes(
            1,
            &[kept(view.clone()), kept(high.clone()), once(integer(9))],
        ),
        low("no 15 for what is written over", set_integer(0, 1))
            .finishes(1, &[once(integer(1)), kept(high.clone()), kept(own)]),
        low("no 15 for an own slot's write view", set(2, own_view))
            .finishes(1, &[kept(view), kept(high), once(write_view(2))]),
    ]
}

/// Region 1 stands above all three owners.
fn by_a_region_above() -> Vec<Case> {
    let [view, high, own] = slots();
    let above = |name, code| block(name, 1, code, 1);
    let through = assign(slot(0), literal(integer(9)));
    vec![
        above("no 15 for a region above", through)
            .finishes(1, &[kept(view.clone()), once(integer(9)), kept(own)]),
        above("no 15 for a copy by a region above", set(2, slot(0)))
            .finishes(1, &[kept(view.clone()), kept(high), once(view)]),
        above(
            "13 for a guard by a region above",
            while_do(slot(0), skip()),
        )
        .refused(13, 0, 0, 0),
        above("13 for a read by a region above", set(2, reads(2, 0))).refused(13, 0, 0, 0),
    ]
}

/// "Any block may read through a read view that it holds."
fn read_views() -> Vec<Case> {
    let [view, high, _] = slots();
    let cases = RULES.into_iter().flat_map(|rule| {
        let held = block(
            format!("a read view of a slot above is held, rule {rule}"),
            0,
            set(2, literal(read_view(1))),
            rule,
        );
        let read = block(
            format!("a slot above is read, rule {rule}"),
            0,
            set(2, slot(1)),
            rule,
        );
        let end = |own| [kept(view.clone()), kept(high.clone()), once(own)];
        [
            held.finishes(1, &end(read_view(1))),
            read.finishes(1, &end(high.clone())),
        ]
    });
    cases.collect()
}
