//! The run: commands, recursive over the tree.
//!
//! A step that is refused unwinds the recursion, and on its way out each command
//! adds the part that it had taken: that is the way back in. To carry on, the
//! recursion goes down that way without a step, does what is left of the innermost
//! command, and then of each around it.

use crate::answer::{Answer, BlockRefusal};
use crate::code::{Block, Command, Form};
use crate::journal::Journal;
use crate::order::Principal;
use crate::pause::Pause;
use crate::programme::Region;
use crate::rule::{Budget, RuleSet};
use crate::sheet::Store;
use crate::step::Cause;
use crate::watch::{Here, Watch};
use crate::way::{Taken, Way};

/// What a run comes to.
pub(crate) struct End {
    pub answer: Answer,
    pub store: Store,
    pub journal: Option<Journal>,
    /// Where it stopped, if it was refused.
    pub stopped: Option<Pause>,
}

/// Why a run stopped, and the parts taken to get there, the innermost first.
struct Stop {
    refused: BlockRefusal,
    parts: Vec<Taken>,
}

impl Stop {
    fn at(refused: BlockRefusal) -> Stop {
        let parts = Vec::new();
        Stop { refused, parts }
    }

    /// The same, seen from outside the part in which it was.
    fn inside(mut self, taken: Taken) -> Stop {
        self.parts.push(taken);
        self
    }

    /// The way to it in this block.
    fn way(self, block: usize) -> Way {
        let parts = self.parts.into_iter().rev().collect();
        Way { block, parts }
    }
}

pub(crate) struct Run<'a, W> {
    pub store: Store,
    pub rule: RuleSet,
    pub budget: Budget,
    pub steps: u32,
    /// None where no journal is lent.
    pub journal: Option<Journal>,
    /// The number of the block that is running.
    pub block: usize,
    pub watch: &'a mut W,
}

impl<W: Watch> Run<'_, W> {
    /// "Blocks run in order." The first that runs is the way's, of which nothing
    /// is done that was done before.
    pub fn blocks(mut self, blocks: &[Block], from: &Way) -> End {
        let mut way = &from.parts[..];
        for (number, block) in blocks.iter().enumerate().skip(from.block) {
            if let Err(stop) = self.block(number, block, way) {
                let answer = stop.refused.in_block(number, self.steps);
                let way = stop.way(number);
                return self.end(answer, Some(way));
            }
            way = &[];
        }
        let answer = Answer::finished(blocks.len(), self.steps);
        self.end(answer, None)
    }

    fn end(self, answer: Answer, stopped: Option<Way>) -> End {
        let steps = self.steps;
        End {
            answer,
            store: self.store,
            journal: self.journal,
            stopped: stopped.map(|way| Pause { steps, way }),
        }
    }

    /// The branch label "is top at a block's start".
    fn block(&mut self, number: usize, block: &Block, way: &[Taken]) -> Result<(), Stop> {
        self.block = number;
        let top = self.store.table.order.top();
        self.command(block.region, &block.command, top, way)
    }

    /// Runs a command under a branch label, or what is left of it where there is
    /// a way to go inside. The label is handed inwards only, so whatever a part
    /// was run under, the outer one is back after it.
    #[inline]
    fn command(
        &mut self,
        region: Region,
        command: &Command,
        branch: Principal,
        way: &[Taken],
    ) -> Result<(), Stop> {
        match way.split_first() {
            None => self.whole(region, command, branch),
            Some((taken, further)) => {
                self.part(region, command, *taken, further)?;
                self.after(region, command, branch, taken.child)
            }
        }
    }

    fn whole(&mut self, region: Region, command: &Command, branch: Principal) -> Result<(), Stop> {
        let here = Here {
            block: self.block,
            offset: command.offset,
            region,
            branch,
        };
        match &command.form {
            Form::Skip => Ok(()),
            Form::Assignment { target, value } => {
                let done = self.assignment(here, target, value);
                done.map_err(|cause| self.stop(here, *cause))
            }
            Form::Sequence(_) => self.children(region, command, branch, 0),
            Form::If { guard, .. } => {
                let lead = self
                    .guard(here, guard)
                    .map_err(|cause| self.stop(here, *cause))?;
                let child = match lead.holds {
                    true => Command::THEN_PART,
                    false => Command::ELSE_PART,
                };
                self.part(region, command, lead.into_part(child), &[])
            }
            Form::While { guard, .. } => loop {
                let lead = self
                    .guard(here, guard)
                    .map_err(|cause| self.stop(here, *cause))?;
                if !lead.holds {
                    return Ok(());
                }
                self.part(region, command, lead.into_part(Command::BODY), &[])?;
            },
        }
    }

    /// What is left of a command when this part of it is done: the commands that
    /// follow in a sequence, and a while's next rounds.
    fn after(
        &mut self,
        region: Region,
        command: &Command,
        branch: Principal,
        child: u8,
    ) -> Result<(), Stop> {
        match command.form {
            Form::Sequence(_) => self.children(region, command, branch, child + 1),
            Form::While { .. } => self.whole(region, command, branch),
            _ => Ok(()),
        }
    }

    /// A sequence's commands from this one on, under its own branch label.
    fn children(
        &mut self,
        region: Region,
        sequence: &Command,
        label: Principal,
        first: u8,
    ) -> Result<(), Stop> {
        let children = (first..=u8::MAX).take_while(|child| sequence.part(*child).is_some());
        for child in children {
            self.part(region, sequence, Taken { child, label }, &[])?;
        }
        Ok(())
    }

    /// Runs a part that is taken, or what is left of it.
    #[inline]
    fn part(
        &mut self,
        region: Region,
        command: &Command,
        taken: Taken,
        way: &[Taken],
    ) -> Result<(), Stop> {
        // No part is taken that there is not.
        let Some(part) = command.part(taken.child) else {
            return Ok(());
        };
        self.watch.entered(command, taken);
        self.command(region, part, taken.label, way)
            .map_err(|stop| stop.inside(taken))?;
        self.watch.left(command);
        Ok(())
    }

    /// The run is refused at this command.
    #[cold]
    fn stop(&mut self, here: Here, cause: Cause<W::Trail>) -> Stop {
        let refused = BlockRefusal {
            refusal: cause.refusal(),
            offset: here.offset,
        };
        self.watch.stopped(here, self.steps, cause);
        Stop::at(refused)
    }
}
