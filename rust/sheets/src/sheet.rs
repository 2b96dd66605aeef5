//! Store sheets, table sheets and programme sheets, and order tables to try
//! them with.

use crate::code::{set, set_integer, slot};
use crate::value::integer;
use crate::{join, Bytes};

/// Two principals, 0 below 1.
pub const PAIR: [u32; 2] = [0b01, 0b11];

/// 0 and 1 unrelated, 2 the bottom, 3 the top: the meet of 0 and 1 is 2, which
/// is the smaller number of neither.
pub const DIAMOND: [u32; 4] = [0b0101, 0b0110, 0b0100, 0b1111];
pub const LEFT: u8 = 0;
pub const RIGHT: u8 = 1;
pub const BOTTOM: u8 = 2;
pub const TOP: u8 = 3;

/// The diamond with one more principal, 4, which is the meet of 0 and 1 and
/// stands above the bottom.
pub const KITE: [u32; 5] = [0b10101, 0b10110, 0b00100, 0b11111, 0b10100];
pub const STEM: u8 = 4;

/// So many principals, each above those with smaller numbers.
pub fn chain(principals: usize) -> Vec<u32> {
    (0..principals).map(|i| u32::MAX >> (31 - i)).collect()
}

/// A store sheet of these masks and, for each slot, owner and value.
pub fn store(masks: &[u32], slots: &[(u8, Bytes)]) -> Bytes {
    let owners: Bytes = slots.iter().map(|(owner, _)| *owner).collect();
    let values: Vec<Bytes> = slots.iter().map(|(_, value)| value.clone()).collect();
    join(&[&table_start(masks, slots.len()), &owners, &values.concat()])
}

pub fn table(masks: &[u32], owners: &[u8]) -> Bytes {
    join(&[&table_start(masks, owners.len()), owners])
}

/// The sizes and masks that a store sheet starts with.
fn table_start(masks: &[u32], slots: usize) -> Bytes {
    let masks_bytes: Bytes = masks.iter().flat_map(|mask| mask.to_le_bytes()).collect();
    join(&[&[one_byte(masks.len())], &two_bytes(slots), &masks_bytes])
}

/// The number of slots that a store sheet says, good or not.
pub fn slots_said(store: &[u8]) -> usize {
    match store {
        [_, low, high, ..] => usize::from(u16::from_le_bytes([*low, *high])),
        _ => 0,
    }
}

/// A block of a programme sheet: its region byte, its floor byte and its code.
pub type FlooredBlock = (u8, u8, Bytes);

/// A programme sheet of these blocks, each a region byte and its code. Every
/// floor is 0: where principal 0 is the bottom, an endorsed block's labels all
/// stand at or above it.
pub fn programme(blocks: &[(u8, Bytes)]) -> Bytes {
    programme_with_floors(&on_floor_0(blocks))
}

/// The same with a floor byte for each block.
pub fn programme_with_floors(blocks: &[FlooredBlock]) -> Bytes {
    let lengths: Vec<usize> = blocks.iter().map(|(_, _, code)| code.len()).collect();
    of_lengths(blocks, &lengths)
}

/// A programme sheet that says these block lengths, with every floor 0.
pub fn programme_of_lengths(blocks: &[(u8, Bytes)], lengths: &[usize]) -> Bytes {
    of_lengths(&on_floor_0(blocks), lengths)
}

fn on_floor_0(blocks: &[(u8, Bytes)]) -> Vec<FlooredBlock> {
    let floored = |(region, code): &(u8, Bytes)| (*region, 0, code.clone());
    blocks.iter().map(floored).collect()
}

fn of_lengths(blocks: &[FlooredBlock], lengths: &[usize]) -> Bytes {
    let regions: Bytes = blocks.iter().map(|(region, _, _)| *region).collect();
    let floors: Bytes = blocks.iter().map(|(_, floor, _)| *floor).collect();
    let code: Bytes = blocks
        .iter()
        .flat_map(|(_, _, code)| code.clone())
        .collect();
    programme_of_arrays(&regions, lengths, &floors, &code)
}

/// A programme sheet of its arrays and its code, as many blocks as regions.
/// "Every block gets a floor principal, in a third array of one byte each after
/// the lengths" (document 02, N6); here there may be more or fewer.
pub fn programme_of_arrays(regions: &[u8], lengths: &[usize], floors: &[u8], code: &[u8]) -> Bytes {
    let sizes = join(&[&[one_byte(regions.len())], &two_bytes(code.len())]);
    let lengths = lengths.iter().flat_map(|length| two_bytes(*length));
    let lengths: Bytes = lengths.collect();
    join(&[&sizes, regions, &lengths, floors, code])
}

fn one_byte(size: usize) -> u8 {
    u8::try_from(size).expect("a size of one byte")
}

fn two_bytes(size: usize) -> [u8; 2] {
    let size = u16::try_from(size).expect("a size of two bytes");
    size.to_le_bytes()
}

/// Document 01's store: two slots, owned by 0 and by 1.
pub fn example_store() -> Bytes {
    store(&PAIR, &[(0, integer(5)), (1, integer(7))])
}

/// Document 01's programme: slot 0 := 42, then slot 1 := slot 0, with the
/// regions given and every floor 0.
pub fn example_programme(regions: [u8; 2]) -> Bytes {
    example_with_floors(regions, [0, 0])
}

/// The same with these floors.
pub fn example_with_floors(regions: [u8; 2], floors: [u8; 2]) -> Bytes {
    programme_with_floors(&[
        (regions[0], floors[0], set_integer(0, 42)),
        (regions[1], floors[1], set(1, slot(0))),
    ])
}

#[cfg(test)]
mod tests {
    use super::*;
    use crate::hex;

    /// "A payload becomes 8 bytes and a value 9" (document 02, N3) and "a third
    /// array of one byte each after the lengths" (N6): document 01's example with
    /// wider payloads and floors.
    #[test]
    fn the_example_has_the_bytes_of_the_paper() {
        let store = "02 0200 01000000 03000000 00 01 000500000000000000 000700000000000000";
        let with_floors = |arrays: &str| {
            let code = "21 10 030000000000000000 10 002A00000000000000 \
                21 10 030100000000000000 11 10 020000000000000000";
            hex(&format!("02 2B00 {arrays} {code}"))
        };
        assert_eq!(example_store(), hex(store));
        assert_eq!(
            example_programme([0x00, 0x01]),
            with_floors("00 01 1500 1600 00 00")
        );
        assert_eq!(
            example_with_floors([0x00, 0x81], [0xFF, 0x01]),
            with_floors("00 81 1500 1600 FF 01")
        );
    }

    /// Three blocks, one of them without code.
    #[test]
    fn floors_stand_between_the_lengths_and_the_code() {
        let blocks = [(0x81, 5, vec![0x20]), (2, 0x80, vec![]), (3, 7, vec![0x24])];
        assert_eq!(
            programme_with_floors(&blocks),
            hex("03 0200 81 02 03 0100 0000 0100 05 80 07 20 24")
        );
        assert_eq!(programme_with_floors(&[]), hex("00 0000"));
        let plain = blocks.map(|(region, _, code)| (region, code));
        assert_eq!(
            programme(&plain),
            hex("03 0200 81 02 03 0100 0000 0100 00 00 00 20 24")
        );
    }

    #[test]
    fn lengths_are_as_said_whatever_the_code() {
        let sheet = programme_of_lengths(&[(0x81, vec![0x20]), (2, vec![])], &[0x0102, 3]);
        assert_eq!(sheet, hex("02 0100 81 02 0201 0300 00 00 20"));
    }

    #[test]
    fn arrays_are_as_said_whatever_the_regions() {
        let sheet = programme_of_arrays(&[0x81, 2], &[1], &[6, 5, 4], &[0x20]);
        assert_eq!(sheet, hex("02 0100 81 02 0100 06 05 04 20"));
        let old = programme_of_arrays(&[0, 1], &[1, 1], &[], &[0x20, 0x20]);
        assert_eq!(old, hex("02 0200 00 01 0100 0100 20 20"));
    }

    #[test]
    fn a_table_sheet_ends_after_its_owners() {
        assert_eq!(
            table(&PAIR, &[1, 0]),
            hex("02 0200 01000000 03000000 01 00")
        );
        assert_eq!(slots_said(&table(&[1], &[0; 256])), 256);
        assert_eq!(slots_said(&[1, 0]), 0);
    }

    #[test]
    fn in_a_chain_each_is_above_those_before() {
        assert_eq!(chain(3), [0b001, 0b011, 0b111]);
        assert_eq!(chain(32)[31], u32::MAX);
    }
}
