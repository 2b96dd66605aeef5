//! Labels of values and targets (rules 2 and 3), and what blocks are spared that
//! are endorsed down to the bottom. The refusal is 16; that of the branch stands
//! in `branches`, other floors in `floors`.

use crate::case::{case, Case, Draft};
use crate::diamond::{at_or_below, name_of, OWNERS};
use sheets::*;

pub fn cases() -> Vec<Case> {
    let mut cases = literals();
    cases.extend(values_and_targets());
    cases.extend(flows());
    cases.extend(targets());
    cases.extend(chains());
    cases.extend(meets());
    cases.extend(endorsed());
    cases.extend(endorsed_in_all());
    cases.extend(not_kept());
    cases
}

const RELIABLE: &str =
    "unless the block is endorsed the labels of target and value both stand at or above the owner";

/// Refused by 16 at its first step, unless it passes and finishes in that step.
pub fn passes_or_16(block: Draft, passes: bool, end: &[EndSlot]) -> Case {
    if passes {
        block.finishes(1, end)
    } else {
        block.refused(16, 0, 0, 0)
    }
}

/// Slot 0 is low and holds this; slots 1 and 2 are high and hold 7 and 8.
pub fn low_slot(value: Bytes) -> Bytes {
    store(&PAIR, &[(0, value), (1, integer(7)), (1, integer(8))])
}

/// A block of region 1 over those slots.
pub fn high_block(name: impl Into<String>, says: &'static str, low: Bytes, code: Bytes) -> Draft {
    case(name, says).store(low_slot(low)).block(1, code)
}

/// "Its label: top for a literal", whatever the top's number is; here 0, and 1
/// stands below it.
fn literals() -> Vec<Case> {
    let says = "Its label: top for a literal";
    let reversed = |name, region, code| {
        let slots = [(0, integer(5)), (1, integer(7))];
        case(name, says)
            .store(store(&[0b11, 0b10], &slots))
            .block(region, code)
            .rule(3)
    };
    let up = [once(integer(9)), kept(integer(7))];
    vec![
        reversed("top 0: a literal goes up", 0, set_integer(0, 9)).finishes(1, &up),
        reversed("top 0: a low value goes up", 0, set(0, slot(1))).refused(16, 0, 0, 0),
        reversed("top 0: a high value goes down", 0, set(1, slot(0)))
            .finishes(1, &[kept(integer(5)), once(integer(5))]),
        reversed("top 0: 1 writes 0", 1, set_integer(0, 9)).refused(14, 0, 0, 0),
    ]
}

fn values_and_targets() -> Vec<Case> {
    let block = |name, low, code| high_block(name, RELIABLE, low, code).rule(2);
    let through = || assign(slot(0), literal(integer(9)));
    vec![
        block("a literal goes up", integer(5), set_integer(1, 9))
            .finishes(1, &[kept(integer(5)), once(integer(9)), kept(integer(8))]),
        block(
            "a high value goes to a high slot",
            integer(5),
            set(1, slot(2)),
        )
        .finishes(1, &[kept(integer(5)), once(integer(8)), kept(integer(8))]),
        block("a high value goes down", integer(5), set(0, slot(2)))
            .finishes(1, &[once(integer(8)), kept(integer(7)), kept(integer(8))]),
        block("a low value goes up", integer(5), set(1, slot(0))).refused(16, 0, 0, 0),
        block("a low target is high", write_view(1), through()).refused(16, 0, 0, 0),
        block("a low target is high, rule 3", write_view(1), through())
            .rule(3)
            .refused(16, 0, 0, 0),
        block("a low target is high, rule 0", write_view(1), through())
            .rule(0)
            .finishes(
                1,
                &[kept(write_view(1)), once(integer(9)), kept(integer(8))],
            ),
        block("a low target is low", write_view(0), through())
            .finishes(1, &[once(integer(9)), kept(integer(7)), kept(integer(8))]),
    ]
}

/// The top's block copies each principal's integer to each principal's slot, and
/// writes a literal there. Rules 0 and 1 judge no label.
fn flows() -> Vec<Case> {
    let integers = [0, 1, 2, 3].map(integer);
    let slots: Vec<(u8, Bytes)> = OWNERS.into_iter().zip(integers.clone()).collect();
    let block = |name, to: u8, value, rule| {
        case(name, RELIABLE)
            .store(store(&DIAMOND, &slots))
            .block(TOP, set(i64::from(to), value))
            .rule(rule)
    };
    let mut cases = Vec::new();
    for (rule, to) in [0, 1, 2, 3]
        .into_iter()
        .flat_map(|rule| OWNERS.map(|to| (rule, to)))
    {
        let end = |value| {
            let mut end = integers.clone().map(kept);
            end[usize::from(to)] = once(value);
            end
        };
        let name = format!("a literal to {}, rule {rule}", name_of(to));
        cases.push(block(name, to, literal(integer(9)), rule).finishes(1, &end(integer(9))));
        cases.extend(OWNERS.map(|from| {
            let name = format!("{} to {}, rule {rule}", name_of(from), name_of(to));
            let copy = block(name, to, slot(i64::from(from)), rule);
            let passes = rule < 2 || at_or_below(to, from);
            passes_or_16(copy, passes, &end(integer(i64::from(from))))
        }));
    }
    cases
}

/// The target is read from a slot of each principal, and is left's slot.
fn targets() -> Vec<Case> {
    let end = [kept(write_view(1)), once(integer(1))];
    let cases = [2, 3].into_iter().flat_map(|rule| {
        let end = end.clone();
        OWNERS.map(|from| {
            let target = |name, region| {
                let slots = [(from, write_view(1)), (LEFT, integer(0))];
                case(name, RELIABLE)
                    .store(store(&DIAMOND, &slots))
                    .floored(region, BOTTOM, assign(slot(0), literal(integer(1))))
                    .rule(rule)
            };
            let name = format!("{}'s target for left, rule {rule}", name_of(from));
            let endorsed = target(format!("{name}, endorsed"), 0x80 | TOP);
            let judged = passes_or_16(target(name, TOP), at_or_below(LEFT, from), &end);
            [judged, endorsed.finishes(1, &end)]
        })
    });
    cases.flatten().collect()
}

/// Two reads in a row, of which one may be low.
fn chains() -> Vec<Case> {
    let says = "for a read, the meet of the view's label and the slot's owner";
    let chain = |name, views: [Bytes; 3]| {
        let [low, first, second] = views;
        case(name, says)
            .store(store(
                &PAIR,
                &[(0, low), (1, first), (1, second), (1, integer(9))],
            ))
            .block(1, set(3, reads(2, 2)))
            .rule(2)
    };
    let by_high = [integer(5), integer(7), read_view(1)];
    let end = [&by_high.clone().map(kept)[..], &[once(integer(7))]].concat();
    let to_low = [integer(5), integer(7), read_view(0)];
    let by_low = case("a chain by a low view", says)
        .store(low_slot(read_view(2)))
        .block(1, set(1, reads(2, 0)))
        .rule(2);
    vec![
        chain("a chain of high slots", by_high).finishes(1, &end),
        chain("a chain to a low slot", to_low).refused(16, 0, 0, 0),
        by_low.refused(16, 0, 0, 0),
    ]
}

/// Two reads in a row: slot 0, of `first`, shows slot 1, of `second`. What they
/// give goes to `to`'s slot, which stands behind these.
fn two_reads(first: u8, second: u8, to: u8) -> Draft {
    let name = format!(
        "by {} from {} to {}",
        name_of(first),
        name_of(second),
        name_of(to)
    );
    let slots = [
        (first, read_view(1)),
        (second, integer(5)),
        (to, integer(0)),
    ];
    case(
        name,
        "for a read, the meet of the view's label and the slot's owner",
    )
    .store(store(&DIAMOND, &slots))
    .block(TOP, set(2, reads(2, 0)))
}

/// Their label is the meet of both owners. The misreading "taking the smaller
/// principal number as the meet" gives left, which is 0, for left and right.
fn meets() -> Vec<Case> {
    let meets = [
        (LEFT, RIGHT, BOTTOM),
        (RIGHT, LEFT, BOTTOM),
        (LEFT, TOP, LEFT),
        (TOP, LEFT, LEFT),
    ];
    let end = [kept(read_view(1)), kept(integer(5)), once(integer(5))];
    let mut cases = Vec::new();
    for (first, second, meet) in meets {
        for to in OWNERS {
            let block = two_reads(first, second, to);
            cases.extend([2, 3].map(|rule| {
                let block = block.clone().variant(&format!("rule {rule}")).rule(rule);
                passes_or_16(block, at_or_below(to, meet), &end)
            }));
        }
    }
    cases
}

/// Where the floor is the bottom, an endorsed block is spared the judging of
/// labels, all three, and nothing else.
fn endorsed() -> Vec<Case> {
    let says = "unless the block is endorsed";
    let spared = |name, low, code, rule| {
        case(name, says)
            .store(low_slot(low))
            .block(0x81, code)
            .rule(rule)
    };
    let copy = set(1, slot(0));
    let through = assign(slot(0), literal(integer(9)));
    let branch = if_else(slot(0), set_integer(1, 9), skip());
    let up = |rule: u32, number| {
        case(format!("endorsed without authority, rule {rule}"), says)
            .block(0x80, set_integer(1, 9))
            .rule(rule)
            .refused(number, 0, 0, 0)
    };
    vec![
        spared("endorsed value", integer(5), copy.clone(), 2)
            .finishes(1, &[kept(integer(5)), once(integer(5)), kept(integer(8))]),
        spared("endorsed target", write_view(1), through, 3).finishes(
            1,
            &[kept(write_view(1)), once(integer(9)), kept(integer(8))],
        ),
        spared("endorsed branch", truth(true), branch, 3)
            .finishes(2, &[kept(truth(true)), once(integer(9)), kept(integer(8))]),
        up(0, 14),
        up(1, 15),
        up(2, 14),
        up(3, 14),
        up(255, 14),
        case("endorsed block before another", says)
            .store(low_slot(integer(5)))
            .blocks(&[(0x81, copy.clone()), (1, copy)])
            .rule(3)
            .refused(16, 1, 0, 1),
    ]
}

/// A low guard and a low value at once: the value is judged under rule 2 too.
fn endorsed_in_all() -> Vec<Case> {
    let code = if_else(slot(0), set(1, slot(0)), skip());
    let place = 1 + slot(0).len();
    let cases = [2, 3].into_iter().flat_map(|rule| {
        let name = format!("low guard and value, rule {rule}");
        let endorsed = format!("{name}, endorsed");
        let end = [kept(truth(true)), once(truth(true)), kept(integer(8))];
        let block = |name, region| {
            case(name, RELIABLE)
                .store(low_slot(truth(true)))
                .block(region, code.clone())
                .rule(rule)
        };
        [
            block(name, 1).refused(16, 0, place, 1),
            block(endorsed, 0x81).finishes(2, &end),
        ]
    });
    cases.collect()
}

/// The misreading "storing a label with a value". An endorsed block lifts a low
/// value, and then its slot's owner counts; a high value that was put in a low
/// slot comes back low.
fn not_kept() -> Vec<Case> {
    let lift = [(0x81, set(1, slot(0))), (1, set(2, slot(1)))];
    let sink = [(1, set(0, slot(1))), (1, set(2, slot(0)))];
    let end = [kept(integer(5)), once(integer(5)), once(integer(5))];
    let cases = [2, 3].into_iter().flat_map(|rule| {
        let block = |what: &str, blocks| {
            case(
                format!("a label is not kept, {what}, rule {rule}"),
                "Labels are not kept in slots.",
            )
            .store(low_slot(integer(5)))
            .blocks(blocks)
            .rule(rule)
        };
        [
            block("lifted", &lift).finishes(2, &end),
            block("sunk", &sink).refused(16, 1, 0, 1),
        ]
    });
    cases.collect()
}
