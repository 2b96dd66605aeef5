//! Store sheets and programme sheets.

use muntyzhap::code::Command;
use muntyzhap::sheet::{self, store_sheet, Block, Slot, MOST_PRINCIPALS};
use muntyzhap::{BuildError, Value};

/// The principal that owns and runs what no other is named for.
const ONLY: u8 = 0;

/// A store of one principal, which owns every slot: every rule but the kinds'
/// is met by whatever runs over it.
pub fn store_of_one(values: &[Value]) -> Result<Vec<u8>, BuildError> {
    let slots = values.iter().map(|value| Slot::new(ONLY, *value));
    store_sheet(&[1], &slots.collect::<Result<Vec<_>, _>>()?)
}

/// The principals of a store of two, one below the other.
pub const LOW: u8 = 0;
pub const HIGH: u8 = 1;

/// A store of two principals, each slot with its owner.
pub fn store_of_two(slots: &[(u8, Value)]) -> Result<Vec<u8>, BuildError> {
    let slots = slots.iter().map(|(owner, value)| Slot::new(*owner, *value));
    let masks = [1 << LOW, 1 << LOW | 1 << HIGH];
    store_sheet(&masks, &slots.collect::<Result<Vec<_>, _>>()?)
}

/// A full store: 32 principals in a chain, and 256 slots shared among them.
pub fn full_store() -> Result<Vec<u8>, BuildError> {
    let masks: Vec<u32> = (0..32).map(|i| u32::MAX >> (31 - i)).collect();
    let shared = |slot| Slot::new(slot % MOST_PRINCIPALS as u8, any_value(slot));
    let slots = (0..=u8::MAX).map(shared);
    store_sheet(&masks, &slots.collect::<Result<Vec<_>, _>>()?)
}

fn any_value(slot: u8) -> Value {
    match slot % 4 {
        0 => Value::Integer(slot.into()),
        1 => Value::Truth(slot % 8 == 1),
        2 => Value::ReadView(255 - slot),
        _ => Value::WriteView(255 - slot),
    }
}

/// A programme whose blocks all run for principal 0, none of them endorsed.
pub fn programme(blocks: &[Command]) -> Result<Vec<u8>, BuildError> {
    let commands = blocks.iter().cloned();
    let blocks = commands.map(|command| Block::new(ONLY, command));
    sheet::programme_sheet(&blocks.collect::<Result<Vec<_>, _>>()?)
}
