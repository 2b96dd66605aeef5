//! The journal of a run.

use std::fmt::{self, Display, Formatter};

use crate::library;
use crate::refusal::Place;
use crate::value::Value;

/// An entry of a journal: an assignment that a run made.
#[derive(Debug, Clone, Copy, PartialEq, Eq)]
pub struct Entry {
    /// The first byte of the command, and the block that it is in.
    pub place: Place,
    /// The slot that was written.
    pub slot: u8,
    /// What the slot held before.
    pub old: Value,
    /// What was written to it; it may be what it held.
    pub new: Value,
}

impl Entry {
    /// What a run left in an entry, as a value; none where the slot is one that
    /// no store has, or a value is ill-formed.
    pub fn from_raw(raw: &library::Entry) -> Option<Entry> {
        let value = |value: library::Value| Value::from_parts(value.kind, value.payload);
        Some(Entry {
            place: Place {
                block: raw.block,
                offset: raw.offset,
            },
            slot: u8::try_from(raw.slot).ok()?,
            old: value(raw.old_value)?,
            new: value(raw.new_value)?,
        })
    }
}

/// The entry in words.
impl Display for Entry {
    fn fmt(&self, out: &mut Formatter) -> fmt::Result {
        let Entry {
            place,
            slot,
            old,
            new,
        } = self;
        write!(out, "{place} wrote {new} to slot {slot} over {old}")
    }
}
