//! Slots that a block may write, and how labels must stand for that.

use super::{slots_where, Author};
use crate::code::Command;
use crate::expressions::Expression;
use crate::lattices::Lattice;
use crate::values::Value;

/// How a label is to stand in the order.
#[derive(Debug, Clone, Copy, Default)]
pub struct Bound {
    /// At or above this.
    reach: Option<u8>,
    /// Not at or above this, if there is a choice.
    miss: Option<u8>,
}

impl Bound {
    /// One of two, and not the other.
    fn one_of(reach: u8, miss: u8) -> Bound {
        Bound {
            reach: Some(reach),
            miss: Some(miss),
        }
    }

    pub fn allows(self, lattice: &Lattice, label: u8) -> bool {
        let reach = self.reach;
        reach.is_none_or(|reach| lattice.at_or_below(reach, label))
    }

    fn prefers(self, lattice: &Lattice, label: u8) -> bool {
        let miss = self.miss;
        miss.is_some_and(|miss| !lattice.at_or_below(miss, label))
    }
}

impl Author<'_> {
    /// A slot that the region may write, under this branch label too.
    pub(super) fn writable(&mut self, branch: u8) -> Option<u8> {
        let slots = self.writable_slots(|_| branch);
        self.random.pick_any(&slots)
    }

    /// One that it may write also where a guard has read that slot.
    pub(super) fn rewritable(&mut self, branch: u8) -> Option<u8> {
        let table = self.stage.table;
        let slots = self.writable_slots(|slot| table.lattice.meet(branch, table.owner(slot)));
        self.random.pick_any(&slots)
    }

    /// The slots that the region may write, each under its own branch label.
    fn writable_slots(&mut self, branch: impl Fn(u8) -> u8) -> Vec<u8> {
        let by_region = self.minds(self.care.authority);
        let by_branch = self.minds(self.care.branches);
        let (table, region) = (self.stage.table, self.region);
        let below = |slot| table.lattice.at_or_below(table.owner(slot), region);
        slots_where(&self.stage.values, |slot, _| {
            (!by_region || below(slot)) && (!by_branch || self.passes(slot, branch(slot)))
        })
    }

    /// Whether a label is high enough for this slot: it reaches the owner, or the
    /// floor of an endorsed block.
    fn passes(&self, slot: u8, label: u8) -> bool {
        let table = self.stage.table;
        let reaches = |bound| table.lattice.at_or_below(bound, label);
        reaches(table.owner(slot)) || self.endorsement.floor().is_some_and(reaches)
    }

    /// How the labels of target and value are to stand for this slot. If that is
    /// minded, both reach the owner or both the floor, whichever the branch does; if
    /// not, anything goes, or each reaches another one.
    pub(super) fn bounds(&mut self, slot: u8, branch: u8) -> [Bound; 2] {
        let minded = self.minds(self.care.labels);
        let table = self.stage.table;
        let owner = table.owner(slot);
        let Some(floor) = self.endorsement.floor() else {
            let reach = minded.then_some(owner);
            return [Bound { reach, miss: None }; 2];
        };
        let mut bounds = [Bound::one_of(owner, floor), Bound::one_of(floor, owner)];
        self.random.shuffle(&mut bounds);
        if minded {
            let reached = |bound: &&Bound| bound.allows(&table.lattice, branch);
            return [*bounds.iter().find(reached).unwrap_or(&bounds[0]); 2];
        }
        match self.random.one_in(2) {
            true => bounds,
            false => [Bound::default(); 2],
        }
    }

    /// One of these slots whose owner is within the bound.
    pub(super) fn pick_within(&mut self, slots: &[u8], bound: Bound) -> Option<u8> {
        let table = self.stage.table;
        let mut allowed = slots.to_vec();
        allowed.retain(|slot| bound.allows(&table.lattice, table.owner(*slot)));
        let mut preferred = allowed.clone();
        preferred.retain(|slot| bound.prefers(&table.lattice, table.owner(*slot)));
        let picked = self.random.pick_any(&preferred);
        picked.or_else(|| self.random.pick_any(&allowed))
    }

    /// Now and then, in an endorsed block: a write view is put into a slot and used
    /// from there, so that the target's label is not the top. This is done where
    /// owner and floor are unrelated, if it can be: there labels may reach either
    /// alone.
    pub(super) fn planted(&mut self, branch: u8) -> Option<Command> {
        let floor = self.endorsement.floor()?;
        if !self.random.one_in(3) {
            return None;
        }
        let table = self.stage.table;
        let slots = self.writable_slots(|_| branch);
        let mut apart = slots.clone();
        apart.retain(|slot| table.lattice.are_unrelated(table.owner(*slot), floor));
        let slot = self.random.pick_any(&apart);
        let slot = slot.or_else(|| self.random.pick_any(&slots))?;
        let [for_target, for_value] = self.bounds(slot, branch);
        let place = self.pick_within(&slots, for_target)?;
        let view = Expression::literal(Value::WriteView(slot));
        let planted = self.played(Command::set(place, view));
        let target = Expression::read_of(place);
        let value = self.value_for(slot, for_value);
        let used = self.played(Command::Assign { target, value });
        Some(Command::Sequence(vec![planted, used]))
    }
}

#[cfg(test)]
mod tests {
    use super::*;
    use crate::ample::plain_run;
    use crate::author::Care;
    use crate::code::programme_sheet;
    use crate::random::Random;
    use crate::sheets::Store;

    /// How many of some endorsed programmes finish under rules 2 and 3.
    fn endorsed_that_finish(care: Care) -> [usize; 2] {
        let finishes = |case, rule| {
            let mut random = Random::of_case(31, case);
            let store = Store::with_unrelated(&mut random);
            let blocks = Author::new(&mut random, &store, care).endorsed_programme();
            let sheet = programme_sheet(&blocks).bytes;
            let run = plain_run(&store.bytes(), &sheet, rule);
            run.second().answer.number == 0
        };
        [2, 3].map(|rule| (0..1_000).filter(|case| finishes(*case, rule)).count())
    }

    #[test]
    fn floors_are_minded_as_far_as_labels_are() {
        let minded = endorsed_that_finish(Care::FULL);
        assert!(minded.iter().all(|count| *count > 850), "{minded:?}");
        let labels = endorsed_that_finish(Care {
            labels: 0,
            ..Care::FULL
        });
        assert!(labels.iter().all(|count| *count < 700), "{labels:?}");
        let branches = endorsed_that_finish(Care {
            branches: 0,
            ..Care::FULL
        });
        assert!(branches[1] + 50 < branches[0], "{branches:?}");
    }
}
