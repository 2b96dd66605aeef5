//! Blocks of a programme.

use super::{code_bytes, is_principal};
use crate::build_error::BuildError;
use crate::code::Code;

/// A block: for whom it runs, down to which floor it is endorsed if it is, and
/// its one command.
///
/// It is made by its constructors alone, so a block that was not endorsed never
/// runs endorsed:
///
/// ```
/// # use muntyzhap::{code::skip, sheet::Block};
/// let block = Block::new(1, skip())?;
/// assert!(!block.is_endorsed());
/// assert_eq!(block.floor(), None);
/// # Ok::<(), muntyzhap::BuildError>(())
/// ```
///
/// and not by its parts:
///
/// ```compile_fail,E0451
/// # use muntyzhap::{code::skip, sheet::Block};
/// let block = Block { region: 0x81, floor: None, code: skip().into() };
/// ```
///
/// An endorsed block names its floor:
///
/// ```
/// # use muntyzhap::{code::skip, sheet::Block};
/// let block = Block::endorsed(1, 0, skip())?;
/// assert_eq!(block.floor(), Some(0));
/// # Ok::<(), muntyzhap::BuildError>(())
/// ```
///
/// and is not made without one:
///
/// ```compile_fail,E0061
/// # use muntyzhap::{code::skip, sheet::Block};
/// let block = Block::endorsed(1, skip())?;
/// # Ok::<(), muntyzhap::BuildError>(())
/// ```
#[derive(Debug, Clone, PartialEq, Eq)]
pub struct Block {
    region: u8,
    /// An endorsed block has one, and no other has.
    floor: Option<u8>,
    code: Code,
}

impl Block {
    /// What an endorsed block's region byte has besides its principal.
    pub const ENDORSED: u8 = 0x80;

    /// The floor byte of a block that is not endorsed, which means nothing.
    const NO_FLOOR: u8 = 0;

    /// A block that runs for this principal and is not endorsed. Its code is a
    /// [`Command`](crate::code::Command), or bytes as [`Code::unjudged`].
    ///
    /// # Errors
    /// [`BuildError::Region`] if that is no principal's number,
    /// [`BuildError::CodeBytes`] for more code than a programme has.
    pub fn new(region: u8, code: impl Into<Code>) -> Result<Block, BuildError> {
        Block::made(region, None, code.into())
    }

    /// The same, but endorsed down to a floor: what comes from that principal,
    /// or from above it, it may write to any slot that its region may write.
    /// "Where rule 0 allows it, an endorsed assignment passes under rules 2 and 3
    /// when the meet of all labels judged stands at or above the slot's owner, or
    /// at or above the floor" (document 02, N6). Judged are the labels of target
    /// and value and, under rule 3, of the branch. What comes from below or
    /// beside the floor is judged as in a block that is not endorsed (16).
    ///
    /// The isolation of rule 3 from an adversary holds where no endorsed block
    /// outside the adversary's reach has a floor at or below the adversary. So a
    /// floor is best as high as the block can do with: where it is the bottom of
    /// the order, nothing in the block is refused by 16.
    ///
    /// # Errors
    /// As of [`Block::new`], and [`BuildError::Floor`] if the floor is no
    /// principal's number.
    pub fn endorsed(region: u8, floor: u8, code: impl Into<Code>) -> Result<Block, BuildError> {
        Block::made(region, Some(floor), code.into())
    }

    /// The region is judged before the floor, as the library does (8).
    fn made(region: u8, floor: Option<u8>, code: Code) -> Result<Block, BuildError> {
        if !is_principal(region) {
            return Err(BuildError::Region(region));
        }
        if let Some(floor) = floor.filter(|floor| !is_principal(*floor)) {
            return Err(BuildError::Floor(floor));
        }
        code_bytes(code.bytes())?;
        Ok(Block {
            region,
            floor,
            code,
        })
    }

    /// The number of the principal that it runs for.
    pub fn region(&self) -> u8 {
        self.region
    }

    /// Whether it is endorsed, which it is down to its floor only.
    pub fn is_endorsed(&self) -> bool {
        self.floor.is_some()
    }

    /// The number of the principal down to which it is endorsed, if it is.
    pub fn floor(&self) -> Option<u8> {
        self.floor
    }

    /// The bytes of its command.
    pub fn code(&self) -> &[u8] {
        self.code.bytes()
    }

    pub(super) fn region_byte(&self) -> u8 {
        match self.is_endorsed() {
            true => self.region | Block::ENDORSED,
            false => self.region,
        }
    }

    pub(super) fn floor_byte(&self) -> u8 {
        self.floor.unwrap_or(Block::NO_FLOOR)
    }
}
