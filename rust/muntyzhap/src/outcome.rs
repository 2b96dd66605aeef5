//! How a stretch of a run ended.

use crate::checkpoint::Checkpoint;
use crate::library::Answer;
use crate::refusal::{Place, Refusal};
use crate::sheet::Slot;

/// How a stretch of a run ended that was not refused: one call of
/// [`start`](crate::start) or [`carry_on`](crate::carry_on). There is no journal.
#[derive(Debug, Clone, PartialEq, Eq)]
pub enum Outcome {
    /// The blocks have finished.
    Finished {
        /// The blocks of the programme; all of them ran.
        blocks: usize,
        /// The guards judged and the assignments made, in all stretches.
        steps: u32,
        /// The end store: of each slot its owner, what it holds and how often it
        /// was written, in all stretches.
        slots: Vec<Slot>,
    },
    /// The budget was spent (17).
    Paused {
        /// The first byte of the command whose step is next.
        place: Place,
        /// What to carry on from. It has the steps so far.
        checkpoint: Checkpoint,
    },
}

impl Outcome {
    /// What a stretch over this store answered and left.
    ///
    /// # Panics
    /// If that is what no stretch leaves.
    pub(crate) fn read(answer: Answer, store: &[u8], left: Checkpoint) -> Result<Outcome, Refusal> {
        match Refusal::from_answer(answer) {
            None => Ok(Outcome::Finished {
                blocks: answer.block,
                steps: answer.steps,
                slots: left.slots(store).expect("an end store"),
            }),
            Some(Refusal::BudgetSpent(stop)) => Ok(Outcome::Paused {
                place: stop.place,
                checkpoint: left,
            }),
            Some(refusal) => Err(refusal),
        }
    }
}
