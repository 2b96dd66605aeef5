//! Blocks within the adversary's reach and outside it.

use super::counts::Without;
use crate::author::Author;
use crate::code::{Block, Endorsement};

/// What the blocks of a pair have to keep to.
#[derive(Debug, Clone, Copy)]
pub(super) struct Terms {
    pub adversary: u8,
    pub without: Option<Without>,
    /// Blocks outside the adversary's reach may be endorsed.
    pub endorses: bool,
}

impl Terms {
    /// Any region within reach, endorsed or not, with any floor.
    pub fn block_within_reach(self, author: &mut Author) -> Block {
        let lattice = &author.table().lattice;
        let within = |region| lattice.at_or_below(region, self.adversary);
        let region = author.random().pick(&lattice.principals_where(within));
        let endorsement = author.any_endorsement(region, 2);
        author.block(region, endorsement)
    }

    /// Now and then one that shows the adversary in counts and entries alone, under
    /// rules that let it pass. An endorsed block is often of the region that may
    /// write every slot.
    pub fn block_outside_reach(self, author: &mut Author) -> Block {
        if author.random().one_in(40) {
            let lattice = &author.table().lattice;
            let low = |owner| lattice.at_or_below(owner, self.adversary);
            if let Some(block) = author.block_of_parts_alike(lattice.top(), low) {
                return block;
            }
        }
        let endorsed = self.endorses && author.random().percent(60);
        let lattice = &author.table().lattice;
        let outside = |region| !lattice.at_or_below(region, self.adversary);
        let region = match endorsed && author.random().one_in(2) {
            true => lattice.top(),
            false => author.random().pick(&lattice.principals_where(outside)),
        };
        let endorsement = match endorsed {
            true => Endorsement::DownTo(self.floor_outside_reach(author, region)),
            false => author.no_endorsement(),
        };
        author.block(region, endorsement)
    }

    /// A floor that does not stand at or below the adversary, unless that is left
    /// out.
    fn floor_outside_reach(self, author: &mut Author, region: u8) -> u8 {
        let lattice = &author.table().lattice;
        let below = |floor| lattice.at_or_below(floor, self.adversary);
        let let_in = author.random().one_in(2);
        match self.without {
            Some(Without::NoFloorAt) if let_in => self.adversary,
            Some(Without::NoFloorBelow) if let_in => {
                let floors = |floor| below(floor) && floor != self.adversary;
                author.random().pick(&lattice.principals_where(floors))
            }
            _ => author.floor_where(region, |floor| !below(floor)),
        }
    }
}

/// The same block again. Where it is not endorsed, another byte for its floor makes
/// no other block of it.
pub(super) fn same_again(author: &mut Author, block: &Block) -> Block {
    author.watch(block);
    let endorsement = match block.endorsement {
        Endorsement::DownTo(floor) => Endorsement::DownTo(floor),
        Endorsement::Absent { .. } => author.no_endorsement(),
    };
    Block {
        endorsement,
        ..block.clone()
    }
}
