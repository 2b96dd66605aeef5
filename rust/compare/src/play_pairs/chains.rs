//! Runs of a pair in stretches of random budgets.

use std::fmt::{self, Display, Formatter};

use super::pair::Pair;
use super::Stopped;
use crate::calls::{Call, Seen, Stretch};
use crate::checkpoints::{steps_so_far, Checkpoint, Place};
use crate::code::{programme_sheet, Block, Command, Endorsement};
use crate::expressions::Expression;
use crate::outputs::output_length;
use crate::random::Random;
use crate::values::Value;

/// What a run's stretches keep to.
#[derive(Debug, Clone, Copy, PartialEq, Eq)]
pub(super) enum Chain {
    /// Each under rule 3, by either of its numbers, and as written.
    AsDemanded,
    /// All under another rule.
    Under(u32),
    /// Some under another rule.
    MixedRules,
    /// Labels become the top in between, and are written so by a call that has no
    /// steps left.
    Forged,
}

impl Chain {
    pub const ALL: [Chain; 6] = [
        Chain::AsDemanded,
        Chain::Under(0),
        Chain::Under(1),
        Chain::Under(2),
        Chain::MixedRules,
        Chain::Forged,
    ];

    pub fn isolates(self) -> bool {
        self == Chain::AsDemanded
    }

    /// The rule of the next stretch.
    fn rule(self, random: &mut Random) -> u32 {
        match self {
            Chain::AsDemanded | Chain::Forged => random.pick(&[3, 255]),
            Chain::Under(rule) => rule,
            Chain::MixedRules => random.pick(&[3, 3, 255, 0, 2]),
        }
    }

    /// The steps that the next stretch may do. Labels are forged after every step.
    fn steps(self, random: &mut Random) -> u32 {
        match self {
            Chain::Forged => 1,
            _ => random.below(9) as u32,
        }
    }
}

impl Display for Chain {
    fn fmt(&self, out: &mut Formatter) -> fmt::Result {
        match self {
            Chain::AsDemanded => write!(out, "stretches under rule 3"),
            Chain::Under(rule) => write!(out, "stretches under rule {rule}"),
            Chain::MixedRules => write!(out, "stretches, some under rule 0 or 2"),
            Chain::Forged => write!(out, "stretches under rule 3, with forged labels"),
        }
    }
}

/// A run in stretches, each with what is seen of it.
pub(super) type Stretches = Vec<(Call, Seen)>;

impl Pair {
    /// The pair with one more block at its start, outside reach: it branches on a slot
    /// that is not protected, true in one store and false in the other, and writes to
    /// one that is, if there are such. Nothing lets it pass that the demand asks for.
    pub fn with_choice(&self, random: &mut Random) -> Option<Pair> {
        let protected: Vec<usize> = self.protected().collect();
        let slots = 0..self.stores[0].table.slots();
        let low: Vec<usize> = slots.filter(|slot| !protected.contains(slot)).collect();
        let (from, to) = random.pick_any(&low).zip(random.pick_any(&protected))?;
        let mut pair = self.clone();
        for (store, holds) in pair.stores.iter_mut().zip([true, false]) {
            store.values[from] = Value::Truth(holds);
        }
        let set = |integer| {
            let value = Expression::literal(Value::Integer(integer));
            Command::set(to as u8, value)
        };
        let block = Block {
            region: self.stores[0].table.lattice.top(),
            endorsement: Endorsement::Absent { ignored: 0 },
            command: Command::if_else(Expression::read_of(from as u8), set(41), set(42)),
        };
        for blocks in &mut pair.replacements {
            blocks.truncate(Block::MOST - 1);
            blocks.insert(0, block.clone());
        }
        Some(pair)
    }

    /// One of the runs, stretch by stretch.
    pub fn chain(
        &self,
        side: usize,
        random: &mut Random,
        chain: Chain,
    ) -> Result<Stretches, Stopped> {
        /// From there on the run goes on to its end.
        const MOST: usize = 12;
        let store = &self.stores[side];
        let mut stretch = Stretch {
            store: store.bytes(),
            programme: programme_sheet(&self.replacements[side]).bytes,
            rule: chain.rule(random),
            budget: chain.steps(random).saturating_sub(1),
            old: None,
            output_length: output_length(store.table.slots()),
            pause_length: Place::WIDTH,
        };
        let (mut played, mut so_far) = (Stretches::new(), 0);
        loop {
            let call = Call::Stretch(stretch.clone());
            let seen = call.compare().map_err(Stopped::Differs)?;
            let checkpoint = seen.checkpoint();
            played.push((call, seen));
            let Some(checkpoint) = checkpoint.filter(|_| stretch.budget < self.budgets[side])
            else {
                return Ok(played);
            };
            let steps = steps_so_far(&checkpoint.pause);
            let has_gone_on = steps > so_far;
            so_far = steps;
            let (from, budget) = match chain {
                Chain::Forged if has_gone_on => (self.forged(checkpoint), steps),
                _ if played.len() < MOST => {
                    let further = steps + chain.steps(random);
                    (checkpoint, further.min(self.budgets[side]))
                }
                _ => (checkpoint, self.budgets[side]),
            };
            stretch = stretch.next(from, budget);
            stretch.rule = chain.rule(random);
        }
    }

    /// The same with every label the top, which 19 lets pass.
    fn forged(&self, mut checkpoint: Checkpoint) -> Checkpoint {
        let length = usize::from(checkpoint.pause[Place::LENGTH]);
        let labels = &mut checkpoint.pause[Place::HEAD + length..][..length];
        labels.fill(self.stores[0].table.lattice.top());
        checkpoint
    }
}

#[cfg(test)]
mod tests {
    use super::*;

    /// A chain ends with a stretch that is not spent, or has all of the run's budget.
    #[test]
    fn chains_are_played_to_their_end() {
        let mut lengths = [0; 16];
        for case in 0..300 {
            let random = &mut Random::of_case(35, case);
            let pair = Pair::random(random, None);
            let played = pair
                .chain(0, random, Chain::AsDemanded)
                .expect("no difference");
            let spent = |seen: &Seen| seen.answer.number == 17;
            let (last, before) = played.split_last().expect("a stretch");
            assert!(before.iter().all(|(_, seen)| spent(seen)));
            assert!(!spent(&last.1) || last.1.answer.steps >= pair.budgets[0]);
            lengths[played.len()] += 1;
        }
        assert!(lengths[1] > 5 && lengths[3] > 5 && lengths[12..].iter().any(|count| *count > 0));
    }
}
