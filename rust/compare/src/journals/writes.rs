//! The writes of a run that is followed.

use crate::code::Command;
use crate::rehearsal::{Rehearsal, Watch};
use crate::steps::Followed;

/// Counts writes among the steps that a run did, and what it did with no entry
/// free.
#[derive(Debug, Clone, Copy)]
pub struct Writes {
    /// The steps that it did.
    steps: u32,
    /// How many were next so far.
    came: u32,
    length: usize,
    pub made: usize,
    /// Guards that were judged with no entry free.
    pub guards_when_full: u64,
}

impl Writes {
    pub fn of(followed: &Followed) -> Writes {
        Writes {
            steps: followed.answer.steps,
            came: 0,
            length: followed.run.journal_length,
            made: 0,
            guards_when_full: 0,
        }
    }

    /// Whether no entry is free after them.
    pub fn fill_all(&self) -> bool {
        self.made == self.length
    }
}

impl Watch for Writes {
    fn comes_to(&mut self, _: &Rehearsal, command: &Command, _: u8) {
        let done = self.came < self.steps;
        self.came += 1;
        match command {
            _ if !done => (),
            Command::Assign { .. } => self.made += 1,
            _ => self.guards_when_full += u64::from(self.fill_all()),
        }
    }
}
