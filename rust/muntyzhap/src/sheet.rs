//! Store sheets and programme sheets, and what a run leaves.
//!
//! A sheet is built only of parts that it can hold, so that no part is taken for
//! another. Whether an order table is good (3), and what a programme needs of
//! its store, the principals of its regions and floors (8) and its views' slots
//! (9), the library judges.

mod block;
mod slot;

use std::ops::RangeInclusive;

use crate::build_error::BuildError;
use crate::code::CommandKind;
use crate::refusal::Place;
use crate::value::Value;

pub use block::Block;
pub use slot::Slot;

/// The most principals of an order table.
pub const MOST_PRINCIPALS: usize = 32;
/// The most slots of a store.
pub const MOST_SLOTS: usize = 256;
/// The most blocks of a programme.
pub const MOST_BLOCKS: usize = 64;
/// The most code bytes of a programme.
pub const MOST_CODE: usize = 16_384;

/// The bytes of the sizes that either sheet starts with: one and two.
pub const SIZES_BYTES: usize = 3;
/// The bytes of each mask of a store sheet.
pub const MASK_BYTES: usize = size_of::<u32>();
/// The bytes of each owner of a store sheet.
pub const OWNER_BYTES: usize = 1;
/// The bytes of each region of a programme sheet.
pub const REGION_BYTES: usize = 1;
/// The bytes of each block's length in a programme sheet.
pub const LENGTH_BYTES: usize = 2;
/// The bytes of each floor of a programme sheet.
pub const FLOOR_BYTES: usize = 1;
/// What each block has in the three arrays of a programme sheet.
const BLOCK_BYTES: usize = REGION_BYTES + LENGTH_BYTES + FLOOR_BYTES;

/// Whether this is the number of a principal that some order table has.
fn is_principal(number: u8) -> bool {
    usize::from(number) < MOST_PRINCIPALS
}

/// A store sheet. Bit j of mask i is set when principal j stands at or below i.
/// It has no counts of writes: a run starts each at 0.
///
/// # Errors
/// For no masks or too many, a mask's bit for a principal that there is not, too
/// many slots, an owner that there is not, or a view of a slot that there is not.
/// Whether the order table is good, the library judges.
pub fn store_sheet(masks: &[u32], slots: &[Slot]) -> Result<Vec<u8>, BuildError> {
    let principals = 1..=MOST_PRINCIPALS;
    let mut sheet = vec![one_byte(masks.len(), principals, BuildError::Principals)?];
    sheet.extend(two_bytes(slots.len(), MOST_SLOTS, BuildError::Slots)?);
    for (principal, mask) in masks.iter().enumerate() {
        judge_mask(principal, *mask, masks.len())?;
    }
    for (number, slot) in slots.iter().enumerate() {
        judge_slot(number, slot, masks.len(), slots.len())?;
    }
    sheet.extend(masks.iter().flat_map(|mask| mask.to_le_bytes()));
    sheet.extend(slots.iter().map(Slot::owner));
    sheet.extend(slots.iter().flat_map(|slot| slot.value().to_bytes()));
    Ok(sheet)
}

fn judge_mask(principal: usize, mask: u32, principals: usize) -> Result<(), BuildError> {
    match mask.checked_ilog2() {
        Some(bit) if bit as usize >= principals => Err(BuildError::Mask {
            principal,
            bit,
            principals,
        }),
        _ => Ok(()),
    }
}

fn judge_slot(
    number: usize,
    slot: &Slot,
    principals: usize,
    slots: usize,
) -> Result<(), BuildError> {
    if usize::from(slot.owner()) >= principals {
        return Err(BuildError::OwnerNotInTable {
            slot: number,
            owner: slot.owner(),
            principals,
        });
    }
    match slot.value() {
        Value::ReadView(viewed) | Value::WriteView(viewed) if usize::from(viewed) >= slots => {
            Err(BuildError::View {
                slot: number,
                viewed,
                slots,
            })
        }
        _ => Ok(()),
    }
}

/// The bytes of the output of a run over this sheet. 0 for a sheet that can't
/// hold its sizes; a run refuses it.
pub fn output_bytes(store: &[u8]) -> usize {
    let slots = sizes(store).map_or(0, |(_, slots)| slots);
    slots * Slot::BYTES
}

/// The slots of an end store: their owners from the store sheet, their values
/// and counts of writes from what a finished run wrote, or a paused one. None
/// where the sheet has no owner for each slot, the output isn't of its length, or
/// an owner or a value is ill-formed.
pub fn end_store(store: &[u8], out: &[u8]) -> Option<Vec<Slot>> {
    let (principals, slots) = sizes(store)?;
    let first = SIZES_BYTES + principals * MASK_BYTES;
    let owners = store.get(first..first + slots)?;
    if out.len() != slots * Slot::BYTES {
        return None;
    }
    let slots = owners.iter().zip(out.chunks_exact(Slot::BYTES));
    slots
        .map(|(owner, bytes)| Slot::from_output(*owner, bytes))
        .collect()
}

/// A programme sheet: the blocks' regions, lengths and floors, then their code.
///
/// # Errors
/// [`BuildError::Blocks`] or [`BuildError::CodeBytes`] for more than a programme
/// has.
pub fn programme_sheet(blocks: &[Block]) -> Result<Vec<u8>, BuildError> {
    let mut sheet = vec![one_byte(blocks.len(), 0..=MOST_BLOCKS, BuildError::Blocks)?];
    let code: Vec<u8> = blocks.iter().flat_map(Block::code).copied().collect();
    sheet.extend(code_bytes(&code)?);
    sheet.extend(blocks.iter().map(Block::region_byte));
    for block in blocks {
        sheet.extend(code_bytes(block.code())?);
    }
    sheet.extend(blocks.iter().map(Block::floor_byte));
    sheet.extend(code);
    Ok(sheet)
}

/// How many bytes of code there are, in two bytes.
fn code_bytes(code: &[u8]) -> Result<[u8; LENGTH_BYTES], BuildError> {
    two_bytes(code.len(), MOST_CODE, BuildError::CodeBytes)
}

/// A size in one byte, if it is within its limits.
fn one_byte(
    size: usize,
    limits: RangeInclusive<usize>,
    error: fn(usize) -> BuildError,
) -> Result<u8, BuildError> {
    let byte = u8::try_from(size).ok().filter(|_| limits.contains(&size));
    byte.ok_or(error(size))
}

/// A size in two bytes, the lowest first, if it is not past its limit.
fn two_bytes(
    size: usize,
    most: usize,
    error: fn(usize) -> BuildError,
) -> Result<[u8; 2], BuildError> {
    let number = u16::try_from(size).ok().filter(|_| size <= most);
    number.map(u16::to_le_bytes).ok_or(error(size))
}

/// The command whose first byte stands at this place of a programme sheet,
/// such as the place where a run was stopped.
pub fn command_at(programme: &[u8], place: Place) -> Option<CommandKind> {
    let (blocks, _) = sizes(programme)?;
    let lengths = programme.get(SIZES_BYTES + blocks * REGION_BYTES..)?;
    let mut lengths = lengths.chunks_exact(LENGTH_BYTES).take(blocks).map(number);
    let before: usize = lengths.by_ref().take(place.block).sum();
    let length = lengths.next()?;
    let start = SIZES_BYTES + blocks * BLOCK_BYTES + before;
    let code = programme.get(start..start + length)?;
    CommandKind::from_byte(*code.get(place.offset)?)
}

/// The two sizes that a sheet starts with, if it can hold them.
fn sizes(sheet: &[u8]) -> Option<(usize, usize)> {
    let (first, rest) = sheet.split_first()?;
    let second = rest.get(..SIZES_BYTES - 1)?;
    Some((usize::from(*first), number(second)))
}

/// The number in two bytes, the lowest first.
fn number(bytes: &[u8]) -> usize {
    let bytes = bytes.iter().rev();
    bytes.fold(0, |higher, byte| higher << 8 | usize::from(*byte))
}
