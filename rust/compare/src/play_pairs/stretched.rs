//! Pairs of runs in stretches: "Protected slots are compared over finished runs in
//! stretches too, where every stretch ran under rule 3, each sheet and output came back
//! as written, and the opening values are those of the first stretch." (document 02, N8)
//!
//! As written: in an unbroken chain from a start. That some call wrote the bytes is not
//! enough, since a call that has no steps left writes what it was given.

use std::fmt::{self, Display, Formatter};

use super::chains::{Chain, Stretches};
use super::pair::{Leak, Pair};
use super::traces::Traces;
use super::Stopped;
use crate::calls::Seen;
use crate::checkpoints::Place;
use crate::random::Random;

/// How many pairs of runs in such stretches did what.
#[derive(Debug, Clone, Copy, Default)]
pub struct Counts {
    pub finished: u64,
    /// Finished, both in several stretches.
    pub paused: u64,
    /// Finished, and one paused where the branch label is not the top.
    pub in_branches: u64,
    /// Finished, and some slot ends differently.
    pub told_apart: u64,
    /// Finished, and a protected slot doesn't end with its opening value.
    pub changed: u64,
    /// Finished, and a protected slot is left differently.
    pub leaked: Traces,
}

impl Display for Counts {
    fn fmt(&self, out: &mut Formatter) -> fmt::Result {
        let Counts {
            finished,
            paused,
            in_branches,
            told_apart,
            changed,
            leaked,
        } = self;
        let Traces {
            by_value, by_count, ..
        } = leaked;
        write!(
            out,
            "{finished} pairs finish, {paused} in several stretches, {in_branches} paused in a \
             branch; {changed} change a protected slot, {told_apart} end differently in some \
             slot; in a protected slot: {by_value} by a value, {by_count} by a count alone"
        )
    }
}

/// The counts of every chain.
#[derive(Debug, Clone, Copy, Default)]
pub struct Stretched {
    pub(super) pairs: u64,
    pub(super) chains: [Counts; Chain::ALL.len()],
}

impl Stretched {
    fn chains(&self) -> impl Iterator<Item = (Chain, Counts)> {
        Chain::ALL.into_iter().zip(self.chains)
    }

    pub fn lines(&self) -> Vec<String> {
        let lines = self.chains();
        let lines = lines.map(|(chain, counts)| format!("{chain}: {counts}"));
        lines.collect()
    }

    /// What is wrong with these counts, in words.
    pub fn complaints(&self) -> Vec<String> {
        let enough = |counts: &Counts| {
            let did = [counts.told_apart, counts.changed, counts.in_branches];
            counts.paused > self.pairs / 20 && !did.contains(&0)
        };
        let idle = self.chains().filter(|(_, counts)| !enough(counts));
        let idle = idle.map(|(chain, _)| format!("{chain}: too few pairs finish or do anything"));
        let blind = self
            .chains()
            .filter(|(chain, counts)| !chain.isolates() && counts.leaked.by_value == 0);
        let blind =
            blind.map(|(chain, _)| format!("{chain}: no pair ends differently where protected"));
        idle.chain(blind).collect()
    }

    /// Plays a pair in every chain, as it is and with a choice planted in it.
    pub(super) fn play(&mut self, pair: &Pair, random: &mut Random) -> Result<(), Stopped> {
        self.pairs += 1;
        let planted = pair.with_choice(random);
        for pair in [Some(pair), planted.as_ref()].into_iter().flatten() {
            for (place, chain) in Chain::ALL.into_iter().enumerate() {
                let leak = pair.play_stretches(random, chain, &mut self.chains[place])?;
                if let (true, Some(leak)) = (chain.isolates(), leak) {
                    return Err(Stopped::Leaks(Box::new(leak)));
                }
            }
        }
        Ok(())
    }
}

impl Pair {
    /// Both runs in stretches. If they finish and leave a protected slot differently,
    /// that is a leak.
    fn play_stretches(
        &self,
        random: &mut Random,
        chain: Chain,
        counts: &mut Counts,
    ) -> Result<Option<Leak>, Stopped> {
        let sides = [self.chain(0, random, chain)?, self.chain(1, random, chain)?];
        let ends = sides
            .each_ref()
            .map(|played| played[played.len() - 1].1.clone());
        if ends.iter().any(|end| end.answer.number != 0) {
            return Ok(None);
        }
        let is_paused = |played: &Stretches| played.len() > 1;
        let in_branch = |played: &Stretches| played.iter().any(|(_, seen)| self.is_in_branch(seen));
        counts.finished += 1;
        counts.paused += u64::from(sides.iter().all(is_paused));
        counts.in_branches += u64::from(sides.iter().any(in_branch));
        counts.told_apart += u64::from(ends[0].output() != ends[1].output());
        counts.changed += u64::from(self.changed_protected(&ends));
        let Some(trace) = self.trace(&ends) else {
            return Ok(None);
        };
        counts.leaked.count(trace);
        Ok(Some(self.leak(trace, sides.concat())))
    }

    /// Whether it paused where the branch label is not the top.
    fn is_in_branch(&self, seen: &Seen) -> bool {
        let top = self.stores[0].table.lattice.top();
        let place = seen.checkpoint();
        let place = place.and_then(|checkpoint| Place::in_sheet(&checkpoint.pause));
        place.is_some_and(|place| place.path.iter().any(|(_, label)| *label != top))
    }
}

#[cfg(test)]
mod tests {
    use super::*;

    /// Counts with which nothing is wrong.
    fn all() -> Stretched {
        let counts = Counts {
            finished: 1,
            paused: 1,
            in_branches: 1,
            told_apart: 1,
            changed: 1,
            leaked: Traces {
                by_value: 1,
                by_count: 0,
                by_entries: 0,
            },
        };
        Stretched {
            pairs: 1,
            chains: [counts; Chain::ALL.len()],
        }
    }

    #[test]
    fn chains_that_show_nothing_are_told() {
        assert!(all().complaints().is_empty());
        let changes: [fn(&mut Counts); 5] = [
            |counts| counts.paused = 0,
            |counts| counts.in_branches = 0,
            |counts| counts.told_apart = 0,
            |counts| counts.changed = 0,
            |counts| counts.leaked.by_value = 0,
        ];
        for (place, change) in changes.into_iter().enumerate() {
            for (chain, own) in Chain::ALL.into_iter().enumerate() {
                let mut stretched = all();
                change(&mut stretched.chains[chain]);
                let is_blind = place + 1 == changes.len();
                let told = usize::from(!is_blind || !own.isolates());
                assert_eq!(stretched.complaints().len(), told, "{own}");
            }
        }
    }
}
