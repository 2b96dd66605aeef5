//! The labels of an assignment beside the slot's owner and a floor.

use crate::lattices::Lattice;
use crate::rehearsal::{Assigning, Rehearsal};

/// The labels of target and value, and that of the branch if it is judged. Each
/// reaches what it stands at or above.
#[derive(Debug, Clone)]
pub struct Labels<'a> {
    lattice: &'a Lattice,
    owner: u8,
    floor: u8,
    judged: Vec<u8>,
}

impl<'a> Labels<'a> {
    /// The place of the branch among the labels.
    pub const BRANCH: usize = 2;

    pub fn of(assigning: Assigning, stage: &Rehearsal<'a>, floor: u8) -> Labels<'a> {
        Labels {
            lattice: &stage.table.lattice,
            owner: stage.table.owner(assigning.slot),
            floor,
            judged: assigning.labels.to_vec(),
        }
    }

    pub fn without_branch(mut self) -> Labels<'a> {
        self.judged.truncate(Labels::BRANCH);
        self
    }

    /// The meet of labels stands at or above what each of them does.
    fn reach(&self, bound: u8) -> bool {
        let mut labels = self.judged.iter();
        labels.all(|label| self.lattice.at_or_below(bound, *label))
    }

    pub fn reach_owner(&self) -> bool {
        self.reach(self.owner)
    }

    pub fn reach_floor(&self) -> bool {
        self.reach(self.floor)
    }

    /// They let an endorsed assignment pass.
    pub fn pass(&self) -> bool {
        self.reach_owner() || self.reach_floor()
    }

    pub fn reach_meet_of_both(&self) -> bool {
        self.reach(self.lattice.meet(self.owner, self.floor))
    }

    /// The same labels but for some.
    fn only(&self, test: impl Fn(usize) -> bool) -> Labels<'a> {
        let labels = self.judged.iter().enumerate();
        let kept = labels.filter(|(place, _)| test(*place));
        Labels {
            judged: kept.map(|(_, label)| *label).collect(),
            ..self.clone()
        }
    }

    fn passes_alone(&self, place: usize) -> bool {
        self.only(|other| other == place).pass()
    }

    pub fn each_passes_alone(&self) -> bool {
        (0..self.judged.len()).all(|place| self.passes_alone(place))
    }

    /// The one label that reaches neither owner nor floor, if the others pass.
    pub fn too_low_alone(&self) -> Option<usize> {
        let mut places = 0..self.judged.len();
        let low = places.find(|place| !self.passes_alone(*place))?;
        self.only(|other| other != low).pass().then_some(low)
    }
}
