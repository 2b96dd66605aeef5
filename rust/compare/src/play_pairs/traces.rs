//! Where two runs leave protected slots differently.

use std::fmt::{self, Display, Formatter};

/// Where an adversary is seen: what is first in this order.
#[derive(Debug, Clone, Copy, PartialEq, Eq)]
pub enum Trace {
    /// A protected slot ends with another value.
    Value { slot: usize },
    /// One ends with another count of writes.
    Count { slot: usize },
    /// Other entries name protected slots.
    Entries,
}

impl Display for Trace {
    fn fmt(&self, out: &mut Formatter) -> fmt::Result {
        match self {
            Trace::Value { slot } => write!(out, "slot {slot} ends with another value"),
            Trace::Count { slot } => write!(out, "slot {slot} ends with another count"),
            Trace::Entries => write!(out, "other entries name protected slots"),
        }
    }
}

/// Finished pairs that leave protected slots differently.
#[derive(Debug, Clone, Copy, Default)]
pub struct Traces {
    pub by_value: u64,
    /// By a count alone, all values being the same.
    pub by_count: u64,
    /// By entries alone, all values and counts being the same.
    pub by_entries: u64,
}

impl Traces {
    pub fn count(&mut self, trace: Trace) {
        match trace {
            Trace::Value { .. } => self.by_value += 1,
            Trace::Count { .. } => self.by_count += 1,
            Trace::Entries => self.by_entries += 1,
        }
    }

    pub fn all_came_up(&self) -> bool {
        ![self.by_value, self.by_count, self.by_entries].contains(&0)
    }
}

impl Display for Traces {
    fn fmt(&self, out: &mut Formatter) -> fmt::Result {
        let Traces {
            by_value,
            by_count,
            by_entries,
        } = self;
        write!(
            out,
            "{by_value} by a value, {by_count} by a count alone, {by_entries} by entries alone"
        )
    }
}
