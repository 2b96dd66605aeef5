//! Runs whose output and journal are lent, with marks in them.

use muntyzhap::raw::{self, Answer, Entry};
use muntyzhap::sheet::output_bytes;

/// What each byte of an output or of a pause buffer holds before a run.
pub const BYTE: u8 = 0xA5;
/// What each entry of a journal holds before a run: nothing that a run leaves.
pub const MARK: Entry = Entry {
    block: MARK_NUMBER,
    offset: MARK_NUMBER,
    slot: MARK_NUMBER,
    old_value: MARK_VALUE,
    new_value: MARK_VALUE,
};
const MARK_NUMBER: usize = usize::from_ne_bytes([BYTE; size_of::<usize>()]);
const MARK_VALUE: raw::Value = raw::Value {
    kind: BYTE,
    payload: u64::from_ne_bytes([BYTE; size_of::<u64>()]),
};

/// Entries enough for the runs of most tests.
pub const ROOM: usize = 8;

/// What a run was lent, as it left that, and its answer.
#[derive(Debug, Clone, PartialEq, Eq)]
pub struct Lent {
    pub answer: Answer,
    pub out: Vec<u8>,
    pub journal: Vec<Entry>,
}

impl Lent {
    /// What no run has had yet, of these lengths.
    pub fn new(out: usize, journal: usize) -> Lent {
        Lent {
            answer: Answer::only(u32::MAX),
            out: vec![BYTE; out],
            journal: vec![MARK; journal],
        }
    }

    /// The same after a run.
    pub fn run(mut self, store: &[u8], programme: &[u8], rule: u32, budget: u32) -> Lent {
        let (out, journal) = (&mut self.out, &mut self.journal);
        self.answer = raw::run(store, programme, rule, budget, out, journal);
        self
    }

    /// A run with an output of the store's length and a journal of this one.
    pub fn to_run(store: &[u8], programme: &[u8], rule: u32, budget: u32, journal: usize) -> Lent {
        Lent::new(output_bytes(store), journal).run(store, programme, rule, budget)
    }

    /// Whether output and journal are as they were, every byte and every field.
    pub fn is_untouched(&self) -> bool {
        let marked = self.journal.iter().all(|entry| *entry == MARK);
        marked && self.out.iter().all(|byte| *byte == BYTE)
    }
}
