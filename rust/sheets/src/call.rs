//! A call of a runner, without what is lent to it.

use crate::output::OUTPUT_SLOT;
use crate::sheet::{programme_with_floors, slots_said};
use crate::Bytes;

/// The numbers of the rules.
pub const RULES: [u32; 5] = [0, 1, 2, 3, 255];
/// Enough steps for any run here that isn't about the budget.
pub const AMPLE: u32 = 1_000;
/// Enough entries for any run here that isn't about the journal: as many as the
/// printing program lends.
pub const AMPLE_ENTRIES: usize = 512;

#[derive(Clone)]
pub struct Call {
    pub store: Bytes,
    pub programme: Bytes,
    pub rule: u32,
    pub budget: u32,
    /// The length of the journal, in entries.
    pub journal: usize,
}

/// A call with ample steps and entries.
pub fn call(store: &[u8], programme: &[u8], rule: u32) -> Call {
    Call {
        store: store.to_vec(),
        programme: programme.to_vec(),
        rule,
        budget: AMPLE,
        journal: AMPLE_ENTRIES,
    }
}

/// A call with one block only, its floor 0.
pub fn call_block(store: &[u8], region: u8, code: Bytes, rule: u32) -> Call {
    call_floored(store, region, 0, code, rule)
}

/// The same with this floor.
pub fn call_floored(store: &[u8], region: u8, floor: u8, code: Bytes, rule: u32) -> Call {
    call(
        store,
        &programme_with_floors(&[(region, floor, code)]),
        rule,
    )
}

impl Call {
    pub fn budget(&self, budget: u32) -> Call {
        let mut call = self.clone();
        call.budget = budget;
        call
    }

    pub fn journal(&self, entries: usize) -> Call {
        let mut call = self.clone();
        call.journal = entries;
        call
    }

    pub fn rule(&self, rule: u32) -> Call {
        let mut call = self.clone();
        call.rule = rule;
        call
    }

    /// The length of the output that the store sheet asks for.
    pub fn output_bytes(&self) -> usize {
        OUTPUT_SLOT * slots_said(&self.store)
    }
}
