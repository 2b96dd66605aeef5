//! What the examples share: the principals, and an end store in words.

use muntyzhap::sheet::Slot;

pub const CUSTOMER: u8 = 0;
pub const LABORATORY: u8 = 1;
pub const OTHER_CUSTOMER: u8 = 2;
const BOTTOM: u8 = 3;

/// Who stands at or below each: the laboratory is above its customers. These are
/// unrelated, so it takes a principal below both.
pub const ORDER: [u32; 4] = [
    1 << CUSTOMER | 1 << BOTTOM,
    1 << CUSTOMER | 1 << LABORATORY | 1 << OTHER_CUSTOMER | 1 << BOTTOM,
    1 << OTHER_CUSTOMER | 1 << BOTTOM,
    1 << BOTTOM,
];

/// Prints a line for each slot of an end store.
pub fn print_slots(slots: &[Slot]) {
    for (number, slot) in slots.iter().enumerate() {
        let (owner, value, writes) = (slot.owner(), slot.value(), slot.writes());
        println!("slot {number}, owner {owner}: {value}, writes {writes}");
    }
}
