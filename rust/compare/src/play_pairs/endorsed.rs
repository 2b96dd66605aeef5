//! Endorsed blocks outside the adversary's reach: whether there are some, and
//! whether they write protected slots by their floors.

use std::fmt::{self, Display, Formatter};

use super::pair::is_protected;
use crate::code::{Block, Command};
use crate::floors::Labels;
use crate::rehearsal::{Rehearsal, Watch};

/// What was seen of endorsed blocks outside the adversary's reach.
#[derive(Debug, Clone, Copy, Default, PartialEq, Eq)]
pub struct Endorsed {
    /// There is one.
    pub any: bool,
    /// One changes a protected slot where all labels reach its floor, which is
    /// above the adversary, and not the slot's owner.
    pub by_floor_above: bool,
    /// The same with a floor that is unrelated to the adversary.
    pub by_floor_beside: bool,
}

/// Finished pairs with an endorsed block outside the adversary's reach, and those
/// among them in which one changes a protected slot that its floor alone lets it
/// write: a floor above the adversary, or unrelated to it.
#[derive(Debug, Clone, Copy, Default)]
pub struct Floors {
    pub endorsed: u64,
    pub above: u64,
    pub beside: u64,
}

impl Floors {
    pub fn count(&mut self, seen: Endorsed) {
        self.endorsed += u64::from(seen.any);
        self.above += u64::from(seen.by_floor_above);
        self.beside += u64::from(seen.by_floor_beside);
    }

    /// Of so many finished pairs enough have endorsed blocks and enough have none,
    /// and floors let protected slots be written.
    pub fn are_enough(&self, finished: u64) -> bool {
        let without = finished - self.endorsed;
        let mixed = self.endorsed > finished / 10 && without > finished / 10;
        mixed && self.above > finished / 200 && self.beside > finished / 500
    }
}

impl Display for Floors {
    fn fmt(&self, out: &mut Formatter) -> fmt::Result {
        let Floors {
            endorsed,
            above,
            beside,
        } = self;
        write!(
            out,
            "{endorsed}; a protected slot is written by a floor alone: \
             {above} above the adversary, {beside} unrelated to it"
        )
    }
}

/// Looks on for one adversary while runs are followed.
pub struct Watcher {
    adversary: u8,
    /// The floor of the block, if it is such a one.
    floor: Option<u8>,
    pub found: Endorsed,
}

impl Watcher {
    pub fn new(adversary: u8) -> Watcher {
        Watcher {
            adversary,
            floor: None,
            found: Endorsed::default(),
        }
    }

    /// Whether a protected slot is changed that labels let be written by the floor
    /// alone.
    fn is_by_floor(&self, stage: &Rehearsal, command: &Command, branch: u8, floor: u8) -> bool {
        let Some(assigning) = stage.assigning(command, branch) else {
            return false;
        };
        let slot = usize::from(assigning.slot);
        let labels = Labels::of(assigning, stage, floor);
        is_protected(stage.table, slot, self.adversary)
            && stage.values[slot] != assigning.new
            && labels.reach_floor()
            && !labels.reach_owner()
    }
}

impl Watch for Watcher {
    fn enters(&mut self, stage: &Rehearsal, block: &Block) {
        let lattice = &stage.table.lattice;
        let outside = !lattice.at_or_below(block.region, self.adversary);
        self.floor = block.endorsement.floor().filter(|_| outside);
        self.found.any |= self.floor.is_some();
    }

    fn comes_to(&mut self, stage: &Rehearsal, command: &Command, branch: u8) {
        let lattice = &stage.table.lattice;
        match self.floor {
            Some(floor) if self.is_by_floor(stage, command, branch, floor) => {
                let above = lattice.at_or_below(self.adversary, floor);
                self.found.by_floor_above |= above && floor != self.adversary;
                self.found.by_floor_beside |= lattice.are_unrelated(self.adversary, floor);
            }
            _ => (),
        }
    }
}

#[cfg(test)]
mod tests {
    use super::*;
    use crate::code::Endorsement;
    use crate::expressions::Expression;
    use crate::lattices::Lattice;
    use crate::sheets::{Store, Table};
    use crate::values::Value;

    /// A bottom, 1 and 2 beside each other, 3 above them, and the top. Each owns
    /// the slot of its number, which holds that number.
    fn store() -> Store {
        let masks = vec![0b00001, 0b00011, 0b00101, 0b01111, 0b11111];
        Store {
            table: Table {
                lattice: Lattice::of_good_table(masks),
                owners: vec![0, 1, 2, 3, 4],
            },
            values: (0..5).map(Value::Integer).collect(),
        }
    }

    /// What is seen of a block that copies a slot into another.
    fn seen(adversary: u8, region: u8, floor: u8, [to, from]: [u8; 2]) -> Endorsed {
        let block = Block {
            region,
            endorsement: Endorsement::DownTo(floor),
            command: Command::set(to, Expression::read_of(from)),
        };
        let mut watcher = Watcher::new(adversary);
        store().stage().follow(&[block], 1, &mut watcher);
        watcher.found
    }

    #[test]
    fn what_a_floor_alone_lets_pass_is_seen() {
        let found = |any, by_floor_above, by_floor_beside| Endorsed {
            any,
            by_floor_above,
            by_floor_beside,
        };
        // Slot 3 := slot 2, by the floor 2.
        assert_eq!(seen(0, 4, 2, [3, 2]), found(true, true, false));
        assert_eq!(seen(1, 4, 2, [3, 2]), found(true, false, true));
        // The block is within reach; the slot is not protected.
        assert_eq!(seen(4, 4, 2, [3, 2]), found(false, false, false));
        assert_eq!(seen(3, 4, 2, [3, 2]), found(true, false, false));
        // By the owner too; by neither; nothing changes.
        assert_eq!(seen(0, 4, 2, [2, 3]), found(true, false, false));
        assert_eq!(seen(0, 4, 2, [3, 1]), found(true, false, false));
        assert_eq!(seen(0, 4, 2, [3, 3]), found(true, false, false));
    }
}
