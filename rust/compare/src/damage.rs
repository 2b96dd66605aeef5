//! Damage to a good sheet, aimed at what its bytes say.

use crate::code::{Command, Endorsement};
use crate::expressions::{Expression, Operator};
use crate::high_bytes::set_high_bytes;
use crate::layout::Layout;
use crate::random::Random;
use crate::sheets::{Part, Sheet};
use crate::values::{Kind, Value};

/// The sheet with one or two things wrong. Now and then it is still good.
pub fn damaged(random: &mut Random, sheet: &Sheet) -> Vec<u8> {
    let mut bytes = sheet.bytes.clone();
    if random.one_in(4) {
        change_part(random, sheet, &mut bytes);
    }
    match random.below(22) {
        0 => bytes.truncate(random.below(bytes.len() + 1)),
        1 => drop(bytes.pop()),
        2 => {
            let count = random.between(1, 8);
            bytes.extend(random.bytes(count));
        }
        3 => put(random, &mut bytes),
        4 => swap(random, &mut bytes),
        5 => change_size(random, sheet, &mut bytes),
        6..=9 => reshape_code(random, sheet, &mut bytes),
        10 | 11 => raise_payload(random, sheet, &mut bytes),
        12 | 13 => spoil_floors(random, sheet, &mut bytes),
        _ => change_part(random, sheet, &mut bytes),
    }
    bytes
}

/// Any byte becomes any other.
fn put(random: &mut Random, bytes: &mut [u8]) {
    if !bytes.is_empty() {
        let place = random.below(bytes.len());
        bytes[place] ^= random.between(1, 255) as u8;
    }
}

/// Two bytes change places, often neighbours.
fn swap(random: &mut Random, bytes: &mut [u8]) {
    if bytes.len() < 2 {
        return;
    }
    let one = random.below(bytes.len() - 1);
    let other = match random.one_in(2) {
        true => one + 1,
        false => random.below(bytes.len()),
    };
    bytes.swap(one, other);
}

/// A size says something else: a little more or less, or much more.
fn change_size(random: &mut Random, sheet: &Sheet, bytes: &mut [u8]) {
    let place = random.pick(&sheet.places(Part::Size));
    let old = bytes[place];
    bytes[place] = match random.below(4) {
        0 => old.wrapping_add(1),
        1 => old.wrapping_sub(1),
        2 => random.pick(&[0, 32, 33, 64, 65, 255]),
        _ => random.byte(),
    };
}

/// The payload of a truth value or a view gets too high by its high bytes.
fn raise_payload(random: &mut Random, sheet: &Sheet, bytes: &mut [u8]) {
    let mut kinds = sheet.places(Part::Kind);
    kinds.retain(|place| sheet.bytes[*place] != Kind::Integer as u8);
    match random.pick_any(&kinds) {
        Some(kind) => set_high_bytes(random, &mut bytes[kind + 1..kind + Value::WIDTH]),
        None => put(random, bytes),
    }
}

/// Some byte becomes one that is telling at its place.
fn change_part(random: &mut Random, sheet: &Sheet, bytes: &mut [u8]) {
    const PARTS: [Part; 10] = [
        Part::Mask,
        Part::Owner,
        Part::Kind,
        Part::Payload,
        Part::Region,
        Part::Length,
        Part::Floor,
        Part::Command,
        Part::Count,
        Part::Expression,
    ];
    let part = random.pick(&PARTS);
    let Some(place) = random.pick_any(&sheet.places(part)) else {
        return put(random, bytes);
    };
    bytes[place] = telling(random, part, bytes[place]);
}

/// A byte to stand in place of `old`: next to what is known, or known and out
/// of place.
fn telling(random: &mut Random, part: Part, old: u8) -> u8 {
    let near = old.wrapping_add(random.pick(&[1, 255]));
    let operation = random.pick(&Operator::ALL).byte();
    match part {
        Part::Mask => old ^ (1 << random.below(8)),
        Part::Owner => random.pick(&[near, 31, 32, 255]),
        Part::Kind => random.pick(&[near, Kind::UNKNOWN, 1, 2, 3, 255]),
        Part::Payload => random.pick(&[near, 2, 0x80, 255]),
        Part::Region | Part::Floor => random.pick(&[near, old ^ Endorsement::MARK, 32, 0x7F, 0xFF]),
        Part::Size | Part::Length => near,
        Part::Command => random.pick(&[
            Command::SKIP - 1,
            Command::SKIP,
            Command::ASSIGN,
            Command::SEQUENCE,
            Command::IF,
            Command::WHILE,
            Command::WHILE + 1,
            Expression::LITERAL,
        ]),
        Part::Count => random.pick(&[near, near, 0, 1, 255]),
        Part::Expression => random.pick(&[
            Expression::LITERAL - 1,
            Expression::LITERAL,
            Expression::READ,
            operation,
            Operator::Equal.byte() + 1,
            Command::SKIP,
        ]),
    }
}

/// The layout of a programme sheet that has blocks.
fn layout_of(sheet: &Sheet, bytes: &[u8]) -> Option<Layout> {
    let has_blocks = !sheet.places(Part::Region).is_empty();
    Layout::of(bytes).filter(|layout| has_blocks && layout.blocks > 0)
}

/// A block becomes endorsed, so that the byte for its floor counts, and that
/// changes too; now and then a length as well. Or no floors are left. In a store
/// sheet a byte changes.
fn spoil_floors(random: &mut Random, sheet: &Sheet, bytes: &mut Vec<u8>) {
    let Some(layout) = layout_of(sheet, bytes) else {
        return change_part(random, sheet, bytes);
    };
    if random.one_in(8) {
        bytes.drain(layout.floor_place(0)..layout.floor_place(layout.blocks));
        return;
    }
    let block = random.below(layout.blocks);
    bytes[layout.region_place(block)] |= Endorsement::MARK;
    let floor = layout.floor_place(block);
    if random.one_in(2) {
        bytes[floor] = telling(random, Part::Floor, bytes[floor]);
    }
    match random.below(4) {
        0 => {
            let place = random.pick(&sheet.places(Part::Length));
            bytes[place] = telling(random, Part::Length, bytes[place]);
        }
        1 => bytes.push(random.byte()),
        _ => (),
    }
}

/// The code of a block gets longer or shorter, and the sizes go along; or
/// bytes go over to the next block. In a store sheet a byte changes.
fn reshape_code(random: &mut Random, sheet: &Sheet, bytes: &mut Vec<u8>) {
    let Some(layout) = layout_of(sheet, bytes) else {
        return change_part(random, sheet, bytes);
    };
    let block = random.below(layout.blocks);
    let length = layout.length(bytes, block);
    let start = layout.start(bytes, block);
    // As often at an end of the block as anywhere in it.
    let place = match random.below(4) {
        0 => 0,
        1 => length,
        _ => random.below(length + 1),
    };
    match random.below(4) {
        0 if place < length => {
            layout.set_length(bytes, block, place);
            bytes.drain(start + place..start + length);
        }
        1 if place < length => {
            layout.set_length(bytes, block, length - 1);
            bytes.remove(start + place);
        }
        2 if block + 1 < layout.blocks => {
            // With half of what two bytes can count, the sum is too high and
            // looks right in two bytes.
            let moved = random.pick(&[length.min(1), length.min(1), 0x8000]);
            let next = layout.length(bytes, block + 1);
            layout.set_length(bytes, block, length.wrapping_sub(moved));
            layout.set_length(bytes, block + 1, next + moved);
        }
        _ => {
            let operation = random.pick(&Operator::ALL).byte();
            let known = [
                Command::SKIP,
                Command::SEQUENCE,
                Expression::READ,
                operation,
                0,
            ];
            layout.set_length(bytes, block, length + 1);
            bytes.insert(start + place, random.pick(&known));
        }
    }
}

#[cfg(test)]
mod tests {
    use super::*;
    use crate::ample::plain_run;
    use crate::author::{Author, Care};
    use crate::code::programme_sheet;
    use crate::sheets::Store;
    use crate::tally::NUMBERS;
    use second_runner::check_store;

    fn store_and_programme(case: u64) -> (Store, Sheet) {
        let mut random = Random::of_case(7, case);
        let store = Store::random(&mut random);
        let blocks = Author::new(&mut random, &store, Care::FULL).programme();
        (store, programme_sheet(&blocks))
    }

    #[test]
    fn damaged_stores_meet_every_refusal() {
        let mut seen = [0; 6];
        for case in 0..3_000 {
            let mut random = Random::of_case(8, case);
            let sheet = Store::random(&mut random).sheet();
            seen[check_store(&damaged(&mut random, &sheet)) as usize] += 1;
        }
        assert!(seen.iter().all(|count| *count > 0), "{seen:?}");
    }

    #[test]
    fn damaged_programmes_are_mostly_refused() {
        let mut seen = [0; NUMBERS];
        for case in 0..3_000 {
            let (store, programme) = store_and_programme(case);
            let bytes = damaged(&mut Random::of_case(9, case), &programme);
            let answer = plain_run(&store.bytes(), &bytes, 0).second().answer;
            seen[answer.number as usize] += 1;
        }
        // Nothing here is near the limits of 10.
        assert!((6..=9).all(|number| seen[number] > 0), "{seen:?}");
        assert!(seen[6..=9].iter().sum::<u32>() > 2_000, "{seen:?}");
    }
}
