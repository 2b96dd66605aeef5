//! Runs followed through the steps that they did. What is met there is counted,
//! and told where it goes against document 02.

use crate::answers::Answer;
use crate::calls::Run;
use crate::code::{Block, Command};
use crate::decode::{blocks_in, command_at, store_in};
use crate::floors::Judged;
use crate::operations::Worked;
use crate::rehearsal::{Rehearsal, Watch};
use crate::sheets::Store;

/// A run that takes place, its sheets read back.
pub struct Followed<'a> {
    pub run: &'a Run,
    pub answer: Answer,
    pub blocks: Vec<Block>,
    store: Store,
}

impl Followed<'_> {
    /// None if it is refused before its first step.
    pub fn of(run: &Run, answer: Answer) -> Option<Followed<'_>> {
        if !matches!(answer.number, 0 | 13..=18) {
            return None;
        }
        let sheets = store_in(&run.store).zip(blocks_in(&run.programme));
        let (store, blocks) = sheets.expect("the sheets of a run that takes place are good");
        Some(Followed {
            run,
            answer,
            blocks,
            store,
        })
    }

    /// Plays the steps that it did, or as many as are followed.
    pub fn play(&self, watch: &mut dyn Watch) -> Rehearsal<'_> {
        let mut stage = self.store.stage();
        stage.follow(&self.blocks, self.answer.steps, watch);
        stage
    }

    /// Whether all the steps that it did are played.
    pub fn is_whole(&self) -> bool {
        self.answer.steps <= Rehearsal::MOST_STEPS
    }

    /// The command whose step is refused, if one is.
    pub fn refused(&self) -> Option<Command> {
        let Answer { block, offset, .. } = self.answer;
        let is_refused = self.answer.number != 0;
        is_refused.then(|| command_at(&self.run.programme, block, offset))?
    }
}

/// What is counted of the steps of runs.
#[derive(Debug, Clone, Default)]
pub struct Steps {
    worked: Worked,
    judged: Judged,
}

impl Steps {
    /// Counts what a run does that takes place.
    pub fn count(&mut self, followed: &Followed) {
        let (rule, answer) = (followed.run.rule, followed.answer);
        let mut judged = self.judged.watcher(rule, answer);
        let stage = followed.play(&mut (&mut self.worked, &mut judged));
        self.worked.count_refused(followed, &stage);
    }

    /// The counts, line by line.
    pub fn lines(&self) -> Vec<String> {
        [self.worked.lines(), self.judged.lines()].concat()
    }

    /// What never came up in steps that were done, in words.
    pub fn complaints_of_steps_done(&self) -> Vec<String> {
        let worked = self.worked.complaints_of_steps_done();
        [worked, self.judged.complaints_of_steps_done()].concat()
    }

    /// What never came up, in words.
    pub fn complaints(&self) -> Vec<String> {
        [self.worked.complaints(), self.judged.complaints()].concat()
    }
}
