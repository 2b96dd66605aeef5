//! A run cut at its steps, and carried on from each cut.

use super::{parting, Played, Player, Stopped};
use crate::calls::{Call, Seen, Stretch};
use crate::checkpoints::Checkpoint;
use crate::random::Random;

/// Runs of no more steps are cut at each of them.
pub const EVERY: u32 = 40;
/// Longer ones at so many from the start, at the end, and between.
const SOME: u32 = 10;

impl Played {
    /// Cuts a run whose first stretch came to this, and gives what it paused with.
    pub(super) fn cut(
        &mut self,
        player: &impl Player,
        random: &mut Random,
        first: &Stretch,
        whole: &Seen,
    ) -> Result<Vec<Checkpoint>, Stopped> {
        let mut checkpoints = Vec::new();
        if !matches!(whole.answer.number, 0 | 13..=17) {
            return Ok(checkpoints);
        }
        for cut in cuts_of(random, whole.answer.steps) {
            let start = Stretch {
                budget: cut,
                ..first.clone()
            };
            let paused = self.play(player, &start)?;
            let Some(checkpoint) = paused.checkpoint() else {
                // All its steps are done.
                same(
                    "a budget of just the steps comes to something else",
                    [(first, whole), (&start, &paused)],
                )?;
                continue;
            };
            self.count_cut(&start, &checkpoint);
            let last = whole.answer.steps;
            let between = random.between(cut as usize, last as usize) as u32;
            self.carry_on(player, (first, whole), [cut + 1, between], &checkpoint)?;
            checkpoints.push(checkpoint);
        }
        Ok(checkpoints)
    }

    /// To the end, and up to these steps: as a start with that budget.
    fn carry_on(
        &mut self,
        player: &impl Player,
        (first, whole): (&Stretch, &Seen),
        budgets: [u32; 2],
        checkpoint: &Checkpoint,
    ) -> Result<(), Stopped> {
        let to_end = first.next(checkpoint.clone(), first.budget);
        let end = self.play(player, &to_end)?;
        same(
            "a run that was carried on comes to something else",
            [(first, whole), (&to_end, &end)],
        )?;
        for budget in budgets.map(|budget| budget.min(first.budget)) {
            let next = first.next(checkpoint.clone(), budget);
            let further = self.play(player, &next)?;
            self.count_rise(&next, &further);
            let start = Stretch {
                old: None,
                ..next.clone()
            };
            let started = self.play(player, &start)?;
            same(
                "steps that were carried on come to something else",
                [(&start, &started), (&next, &further)],
            )?;
        }
        Ok(())
    }
}

/// Both come to the same, all bytes of both buffers included.
fn same(words: &'static str, both: [(&Stretch, &Seen); 2]) -> Result<(), Stopped> {
    match both[0].1 == both[1].1 {
        true => Ok(()),
        false => Err(parting(
            words,
            both.map(|(stretch, seen)| (Call::Stretch(stretch.clone()), seen.clone())),
        )),
    }
}

/// The steps at which a run of so many is cut.
fn cuts_of(random: &mut Random, steps: u32) -> Vec<u32> {
    if steps <= EVERY {
        return (0..=steps).collect();
    }
    let between = (0..SOME).map(|_| random.below(steps as usize) as u32);
    let mut cuts: Vec<u32> = between.collect();
    cuts.extend(0..SOME);
    cuts.extend(steps - SOME..=steps);
    cuts.sort_unstable();
    cuts.dedup();
    cuts
}
