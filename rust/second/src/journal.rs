//! The journal of a run's writes (document 02, N7).

use crate::value::{self, SlotNumber};

/// A value as an entry has it: the kind byte and the payload's bits, as the
/// same value has them in the output.
#[repr(C)]
#[derive(Debug, Clone, Copy, PartialEq, Eq, Default)]
pub struct Value {
    pub kind: u8,
    pub payload: u64,
}

impl From<value::Value> for Value {
    fn from(value: value::Value) -> Value {
        Value {
            kind: value.kind().byte(),
            // The cast keeps the payload's bits.
            payload: value.payload() as u64,
        }
    }
}

/// What an assignment did: "block, offset, slot, old value, new value". The
/// offset is that of the command's first byte in its block.
#[repr(C)]
#[derive(Debug, Clone, Copy, PartialEq, Eq, Default)]
pub struct Entry {
    pub block: usize,
    pub offset: usize,
    pub slot: usize,
    pub old: Value,
    pub new: Value,
}

/// A write that was made.
#[derive(Debug, Clone, Copy)]
pub(crate) struct Write {
    pub block: usize,
    pub offset: u32,
    pub slot: SlotNumber,
    pub old: value::Value,
    pub new: value::Value,
}

impl From<&Write> for Entry {
    fn from(write: &Write) -> Entry {
        Entry {
            block: write.block,
            offset: write.offset as usize,
            slot: write.slot.index(),
            old: write.old.into(),
            new: write.new.into(),
        }
    }
}

/// The writes of a run so far. They are kept here until it finishes, so a
/// refused run has put nothing into the journal that is lent.
#[derive(Debug)]
pub(crate) struct Journal {
    /// The entries that are lent.
    length: usize,
    writes: Vec<Write>,
}

impl Journal {
    /// A journal without writes, for a lent one of this length.
    pub fn of_length(length: usize) -> Journal {
        let writes = Vec::new();
        Journal { length, writes }
    }

    /// How many entries are lent.
    pub fn length(&self) -> usize {
        self.length
    }

    /// Whether "no entry is free".
    pub fn is_full(&self) -> bool {
        self.writes.len() == self.length
    }

    pub fn add(&mut self, write: Write) {
        self.writes.push(write);
    }

    /// Fills an entry for each write, in their order. Those past the writes
    /// keep what they hold.
    pub fn fill(&self, lent: &mut [Entry]) {
        for (entry, write) in lent.iter_mut().zip(&self.writes) {
            *entry = write.into();
        }
    }
}
