//! Several blocks: a floor counts for its own block only.

use super::{ARRAY, PASSES};
use crate::case::{case, Case, Draft};
use sheets::*;

pub fn cases() -> Vec<Case> {
    let mut cases = two_blocks();
    cases.extend(without_floors_between());
    cases.extend(sixty_four());
    cases.push(labels_are_not_kept());
    cases
}

/// A low value goes up: the floor has to be 0.
fn copy() -> Bytes {
    set(1, slot(0))
}

fn blocks(name: &str, blocks: &[FlooredBlock]) -> Draft {
    case(name, ARRAY).floored_blocks(blocks).rule(3)
}

/// Each goes by its own floor.
fn two_blocks() -> Vec<Case> {
    let end = [kept(integer(5)), once(integer(5))];
    let both = |name, floors: [u8; 2], codes: [Bytes; 2]| {
        let [first, second] = codes;
        let headers = [(0x81, floors[0], first), (0x81, floors[1], second)];
        blocks(name, &headers)
    };
    vec![
        both("floors 0 and 1", [0, 1], [copy(), copy()]).refused(16, 1, 0, 1),
        both("floors 0 and 1, the second idle", [0, 1], [copy(), skip()]).finishes(1, &end),
        both("floors 1 and 0, the second idle", [1, 0], [copy(), skip()]).refused(16, 0, 0, 0),
        both("floors 1 and 0, the first idle", [1, 0], [skip(), copy()]).finishes(1, &end),
        both("floors 0 and 1, the first idle", [0, 1], [skip(), copy()]).refused(16, 1, 0, 0),
    ]
}

/// Beside a block that is not endorsed: its floor is no other's, and it has none
/// of another's.
fn without_floors_between() -> Vec<Case> {
    let end = [kept(integer(5)), once(integer(5))];
    vec![
        blocks("floor 0 after FF", &[(1, 0xFF, skip()), (0x81, 0, copy())]).finishes(1, &end),
        blocks(
            "floor 1 after an ignored 0",
            &[(1, 0, skip()), (0x81, 1, copy())],
        )
        .refused(16, 1, 0, 0),
        blocks(
            "floor 1 before an ignored 0",
            &[(0x81, 1, copy()), (1, 0, skip())],
        )
        .refused(16, 0, 0, 0),
        blocks("no floor after 0", &[(0x81, 0, copy()), (1, 0, copy())]).refused(16, 1, 0, 1),
        blocks("no floor before 0", &[(1, 0, copy()), (0x81, 0, copy())]).refused(16, 0, 0, 0),
    ]
}

/// Block i copies the low slot, which is the last, to slot i, which is high.
fn sixty_four() -> Vec<Case> {
    let low = 64;
    let mut slots = vec![(1, integer(7)); 64];
    slots.push((0, integer(5)));
    let sheet = store(&PAIR, &slots);
    let with_floor = |name, block: usize, floor| {
        let copies = (0..low).map(|to| (0x81, 0, set(to, slot(low))));
        let mut copies: Vec<FlooredBlock> = copies.collect();
        copies[block].1 = floor;
        case(name, PASSES)
            .store(sheet.clone())
            .floored_blocks(&copies)
            .rule(3)
    };
    // Every second block is not endorsed and writes a literal.
    let mixed = (0..low).map(|to| match to % 2 {
        0 => (1, 0xFF, set_integer(to, 5)),
        _ => (0x81, 0, set(to, slot(low))),
    });
    let mixed: Vec<FlooredBlock> = mixed.collect();
    let mut end = vec![once(integer(5)); 64];
    end.push(kept(integer(5)));
    vec![
        with_floor("64 floors of 0", 63, 0).finishes(64, &end),
        with_floor("64 floors, that of block 31 is 1", 31, 1).refused(16, 31, 0, 31),
        with_floor("64 floors, that of block 63 is 1", 63, 1).refused(16, 63, 0, 63),
        case("64 blocks, every second endorsed", PASSES)
            .store(sheet.clone())
            .floored_blocks(&mixed)
            .rule(3)
            .finishes(64, &end),
    ]
}

/// In a chain of three, a block with floor 1 lifts 1's value to 2's slot; what it
/// left there counts as 2's, and goes on in a block that is not endorsed.
fn labels_are_not_kept() -> Case {
    let slots = [(1, integer(5)), (2, integer(7)), (2, integer(8))];
    case("a lifted value goes on", "Labels are not kept in slots.")
        .store(store(&chain(3), &slots))
        .floored_blocks(&[(0x82, 1, set(1, slot(0))), (2, 0, set(2, slot(1)))])
        .rule(3)
        .finishes(2, &[kept(integer(5)), once(integer(5)), once(integer(5))])
}
