//! What a sheet cannot be built of.

use std::error::Error;
use std::fmt::{self, Display, Formatter};

use crate::code::{FEWEST_COMMANDS, MOST_COMMANDS, MOST_DEPTH, MOST_NESTED};
use crate::sheet::{Block, MOST_BLOCKS, MOST_CODE, MOST_PRINCIPALS, MOST_SLOTS};

/// Why no sheet, or no part of one, was built. Each says the number that is
/// wrong, and its limit.
///
/// The library would refuse most of these too; but a region byte with its
/// highest bit set it would take for an endorsed block's.
#[derive(Debug, Clone, Copy, PartialEq, Eq)]
#[non_exhaustive]
pub enum BuildError {
    /// The region of a block is no principal's number.
    Region(u8),
    /// The floor of an endorsed block is no principal's number.
    Floor(u8),
    /// The owner of a slot is no principal's number.
    Owner(u8),
    /// An order table has no principals, or too many.
    Principals(usize),
    /// A mask has a bit for a principal that its order table has not.
    Mask {
        /// Whose mask it is.
        principal: usize,
        /// The number of the highest bit that is set.
        bit: u32,
        /// How many principals the order table has.
        principals: usize,
    },
    /// A store has too many slots.
    Slots(usize),
    /// A slot's owner is a principal that the store's order table has not.
    OwnerNotInTable {
        /// The slot's number.
        slot: usize,
        /// Its owner.
        owner: u8,
        /// How many principals the order table has.
        principals: usize,
    },
    /// A slot holds a view of a slot that the store has not.
    View {
        /// The slot's number.
        slot: usize,
        /// The slot that its view is of.
        viewed: u8,
        /// How many slots the store has.
        slots: usize,
    },
    /// An expression's reads and operations nest too deep.
    Nested(usize),
    /// A sequence has too few commands, or too many.
    Commands(usize),
    /// Commands nest too deep.
    Depth(usize),
    /// A programme has too many blocks.
    Blocks(usize),
    /// A block or a programme has too many bytes of code.
    CodeBytes(usize),
}

impl Display for BuildError {
    #[rustfmt::skip]
    fn fmt(&self, out: &mut Formatter) -> fmt::Result {
        let last = MOST_PRINCIPALS - 1;
        match self {
            BuildError::Region(region) => {
                write!(out, "region {region} is no principal's number, which is 0 to {last}")?;
                match *region >= Block::ENDORSED {
                    true => out.write_str("; an endorsed block is made by `Block::endorsed`"),
                    false => Ok(()),
                }
            }
            BuildError::Floor(floor) =>
                write!(out, "floor {floor} is no principal's number, which is 0 to {last}"),
            BuildError::Owner(owner) =>
                write!(out, "owner {owner} is no principal's number, which is 0 to {last}"),
            BuildError::Principals(count) =>
                write!(out, "{count} principals: an order table has 1 to {MOST_PRINCIPALS}"),
            BuildError::Mask { principal, bit, principals } =>
                write!(out, "the mask of principal {principal} has bit {bit}, and there are only {principals} principals"),
            BuildError::Slots(count) =>
                write!(out, "{count} slots: a store has at most {MOST_SLOTS}"),
            BuildError::OwnerNotInTable { slot, owner, principals } =>
                write!(out, "slot {slot} is owned by principal {owner}, and there are only {principals} principals"),
            BuildError::View { slot, viewed, slots } =>
                write!(out, "slot {slot} holds a view of slot {viewed}, and there are only {slots} slots"),
            BuildError::Nested(depth) =>
                write!(out, "reads and operations {depth} deep: they nest at most {MOST_NESTED} deep"),
            BuildError::Commands(count) =>
                write!(out, "a sequence of {count}: it has {FEWEST_COMMANDS} to {MOST_COMMANDS} commands"),
            BuildError::Depth(depth) =>
                write!(out, "commands {depth} deep: they nest at most {MOST_DEPTH} deep"),
            BuildError::Blocks(count) =>
                write!(out, "{count} blocks: a programme has at most {MOST_BLOCKS}"),
            BuildError::CodeBytes(count) =>
                write!(out, "{count} bytes of code: a programme has at most {MOST_CODE}"),
        }
    }
}

impl Error for BuildError {}
