//! One low label: of a value, a target or a branch that comes from each
//! principal's slot in the diamond, with floors above, below and beside owner and
//! region.

use super::PASSES;
use crate::case::{case, Case};
use crate::diamond::{name_of, OWNERS};
use crate::labels::passes_or_16;
use sheets::*;

pub fn cases() -> Vec<Case> {
    let mut cases = values();
    cases.extend(targets());
    cases.extend(branches());
    cases.extend(regions());
    cases.extend(top_0());
    cases.extend(chain_of_32());
    cases
}

/// For each of the diamond's principals, by number, whether what comes from its
/// slot may go to the slot of an owner.
struct Row {
    owner: u8,
    floor: u8,
    passes: [bool; 4],
}

fn row(owner: u8, floor: u8, passes: [bool; 4]) -> Row {
    Row {
        owner,
        floor,
        passes,
    }
}

/// Draws up the cases of a row by where the label comes from.
fn by_source(row: &Row, draw: impl Fn(u8, bool) -> Case) -> [Case; 4] {
    OWNERS.map(|from| draw(from, row.passes[usize::from(from)]))
}

/// A block copies `from`'s integer to `to`'s slot; each slot holds its owner's
/// number.
fn copy(what: &str, header: (u8, u8), from: u8, to: u8, passes: bool) -> Case {
    let (region, floor) = header;
    let name = format!(
        "{what}{}'s value to {}, floor {}",
        name_of(from),
        name_of(to),
        name_of(floor)
    );
    let integers = [0, 1, 2, 3].map(integer);
    let slots: Vec<(u8, Bytes)> = OWNERS.into_iter().zip(integers.clone()).collect();
    let draft = case(name, PASSES)
        .store(store(&DIAMOND, &slots))
        .floored(region, floor, set(i64::from(to), slot(i64::from(from))))
        .rule(3);
    let mut end = integers.map(kept);
    end[usize::from(to)] = once(integer(i64::from(from)));
    passes_or_16(draft, passes, &end)
}

/// The owner is enough where the floor is higher or unrelated; the floor is enough
/// where the owner is not.
fn values() -> Vec<Case> {
    let rows = [
        row(LEFT, RIGHT, [true, true, false, true]),
        row(LEFT, TOP, [true, false, false, true]),
        row(TOP, LEFT, [true, false, false, true]),
        row(TOP, TOP, [false, false, false, true]),
    ];
    let cases = rows.iter().flat_map(|row| {
        by_source(row, |from, passes| {
            copy("", (0x80 | TOP, row.floor), from, row.owner, passes)
        })
    });
    cases.collect()
}

/// Slot 0 holds a write view of left's slot.
fn targets() -> Vec<Case> {
    let row = row(LEFT, RIGHT, [true, true, false, true]);
    let cases = by_source(&row, |from, passes| {
        let name = format!("{}'s target for left, floor right", name_of(from));
        let slots = [(from, write_view(1)), (row.owner, integer(0))];
        let draft = case(name, PASSES)
            .store(store(&DIAMOND, &slots))
            .floored(0x80 | TOP, row.floor, assign(slot(0), literal(integer(1))))
            .rule(2);
        passes_or_16(draft, passes, &[kept(write_view(1)), once(integer(1))])
    });
    cases.into()
}

/// Slot 0 is the guard, and true; a literal goes to the top's slot.
fn branches() -> Vec<Case> {
    let row = row(TOP, LEFT, [true, false, false, true]);
    let code = if_else(slot(0), set_integer(1, 9), skip());
    let cases = by_source(&row, |from, passes| {
        let name = format!("{}'s branch to the top, floor left", name_of(from));
        let draft = case(name, PASSES)
            .store(store(
                &DIAMOND,
                &[(from, truth(true)), (row.owner, integer(0))],
            ))
            .floored(0x80 | TOP, row.floor, code.clone())
            .rule(3);
        if passes {
            draft.finishes(2, &[kept(truth(true)), once(integer(9))])
        } else {
            draft.refused(16, 0, 1 + slot(0).len(), 1)
        }
    });
    cases.into()
}

/// Left's block writes left's slot, its floor equal to its region, above it,
/// unrelated to it.
fn regions() -> Vec<Case> {
    let own = |floor, from, passes| copy("by left, ", (0x80 | LEFT, floor), from, LEFT, passes);
    vec![
        own(LEFT, RIGHT, false),
        own(TOP, LEFT, true),
        own(TOP, RIGHT, false),
        own(RIGHT, RIGHT, true),
        own(RIGHT, BOTTOM, false),
        own(BOTTOM, BOTTOM, true),
    ]
}

/// Principal 0 is the top and 1 stands below it: numbers are no ranks.
fn top_0() -> Vec<Case> {
    let up = |floor: u8| {
        case(format!("top 0: a low value goes up, floor {floor}"), PASSES)
            .store(store(&[0b11, 0b10], &[(0, integer(5)), (1, integer(7))]))
            .floored(0x80, floor, set(0, slot(1)))
            .rule(3)
    };
    vec![
        up(0).refused(16, 0, 0, 0),
        up(1).finishes(1, &[once(integer(7)), kept(integer(7))]),
    ]
}

/// 32 principals, each above those with smaller numbers, and a slot of each. The
/// highest one's block copies a lower one's slot to its own.
fn chain_of_32() -> Vec<Case> {
    let up = |from: i64, floor: u8, passes| {
        let integers = (0..32).map(integer);
        let slots: Vec<(u8, Bytes)> = (0..32).zip(integers.clone()).collect();
        let mut end: Vec<EndSlot> = integers.map(kept).collect();
        end[31] = once(integer(from));
        let draft = case(
            format!("32 principals: {from} to 31, floor {floor}"),
            PASSES,
        )
        .store(store(&chain(32), &slots))
        .floored(0x80 | 31, floor, set(31, slot(from)))
        .rule(3);
        passes_or_16(draft, passes, &end)
    };
    vec![
        up(0, 1, false),
        up(15, 15, true),
        up(15, 16, false),
        up(16, 15, true),
        up(30, 31, false),
    ]
}
