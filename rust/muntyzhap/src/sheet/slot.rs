//! Slots of a store.

use super::is_principal;
use crate::build_error::BuildError;
use crate::value::Value;

/// How often a slot was written.
type Count = u32;

/// A slot: who owns it, what it holds, and how often a run has written it.
#[derive(Debug, Clone, Copy, PartialEq, Eq)]
pub struct Slot {
    owner: u8,
    value: Value,
    writes: Count,
}

impl Slot {
    /// The bytes of a count of writes.
    pub const COUNT_BYTES: usize = size_of::<Count>();
    /// The bytes of a slot in the output: its value, and its count of writes.
    pub const BYTES: usize = Value::BYTES + Slot::COUNT_BYTES;

    /// A slot of this principal that no run has written.
    ///
    /// # Errors
    /// [`BuildError::Owner`] if that is no principal's number.
    pub fn new(owner: u8, value: Value) -> Result<Slot, BuildError> {
        let writes = 0;
        match is_principal(owner) {
            true => Ok(Slot {
                owner,
                value,
                writes,
            }),
            false => Err(BuildError::Owner(owner)),
        }
    }

    /// What these bytes of an output say of a slot of this owner.
    pub(super) fn from_output(owner: u8, bytes: &[u8]) -> Option<Slot> {
        let (value, writes) = bytes.split_at_checked(Value::BYTES)?;
        let slot = Slot::new(owner, Value::from_bytes(value)?).ok()?;
        let writes = Count::from_le_bytes(writes.try_into().ok()?);
        Some(Slot { writes, ..slot })
    }

    /// The number of a principal.
    pub fn owner(&self) -> u8 {
        self.owner
    }

    /// What it holds.
    pub fn value(&self) -> Value {
        self.value
    }

    /// How many assignments to it the run made: 0 at opening. As many entries of
    /// the run's journal name it, where it has one.
    pub fn writes(&self) -> u32 {
        self.writes
    }
}
