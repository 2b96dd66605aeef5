//! What a run leaves that finished.

use crate::journal::Entry;
use crate::library;
use crate::report::Report;
use crate::sheet::{end_store, Slot};

/// A run that finished.
#[derive(Debug, Clone, PartialEq, Eq)]
pub struct Finished {
    /// The blocks of the programme; all of them ran.
    pub blocks: usize,
    /// The guards judged and the assignments made.
    pub steps: u32,
    /// The end store: of each slot its owner, what it holds and how often it was
    /// written.
    pub slots: Vec<Slot>,
    /// The assignments made, in their order. Those that name a slot are as many
    /// as its count of writes. Taken back from the last to the first, they lead
    /// from the end store to the opening one.
    pub journal: Vec<Entry>,
}

impl Finished {
    /// What the run wrote, in words: which block wrote what into which slot, in
    /// order, and [by slot](Report::by_slot) or [by block](Report::by_block).
    pub fn report(&self) -> Report<'_> {
        Report::of(&self.journal)
    }

    /// What a run left that answered 0. None for what no run leaves.
    pub(crate) fn read(
        answer: library::Answer,
        store: &[u8],
        out: &[u8],
        journal: &[library::Entry],
    ) -> Option<Finished> {
        let slots = end_store(store, out)?;
        let writes = slots.iter().map(|slot| slot.writes() as usize).sum();
        let journal = journal.get(..writes)?.iter().map(Entry::from_raw);
        Some(Finished {
            blocks: answer.block,
            steps: answer.steps,
            journal: journal.collect::<Option<_>>()?,
            slots,
        })
    }
}
