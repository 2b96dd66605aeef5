//! Endorsements of blocks, with floors of every sort.

use super::Author;
use crate::code::{Block, Endorsement};
use crate::floors::Sort;
use crate::random::Random;

impl Author<'_> {
    /// A few short blocks, most of them endorsed and of the region that may write
    /// every slot.
    pub fn endorsed_programme(&mut self) -> Vec<Block> {
        let count = self.random.between(1, 4);
        (0..count).map(|_| self.mostly_endorsed()).collect()
    }

    fn mostly_endorsed(&mut self) -> Block {
        let region = match self.random.one_in(4) {
            true => self.any_region(),
            false => self.stage.table.lattice.top(),
        };
        let endorsement = match self.random.one_in(8) {
            true => self.no_endorsement(),
            false => Endorsement::DownTo(self.any_floor(region)),
        };
        let depth = self.random.between(0, 2);
        self.block_of_depth(region, endorsement, depth)
    }

    /// One in so many blocks is endorsed, with any floor.
    pub fn any_endorsement(&mut self, region: u8, count: usize) -> Endorsement {
        match self.random.one_in(count) {
            true => Endorsement::DownTo(self.any_floor(region)),
            false => self.no_endorsement(),
        }
    }

    /// A block is not endorsed, and any byte stands for its floor.
    pub fn no_endorsement(&mut self) -> Endorsement {
        let principals = self.stage.table.lattice.principals();
        Endorsement::Absent {
            ignored: any_byte(self.random, principals),
        }
    }

    /// A floor for a block of this region, of any sort: mostly one that lets
    /// assignments pass which the owner doesn't. At or above the region none does,
    /// since it stands above each owner of what the region may write.
    fn any_floor(&mut self, region: u8) -> u8 {
        self.floor_where(region, |_| true)
    }

    /// One that the test holds of, or the region itself.
    pub fn floor_where(&mut self, region: u8, test: impl Fn(u8) -> bool) -> u8 {
        let table = self.stage.table;
        let floors = match self.random.one_in(3) {
            true => {
                let sort = self.random.pick(&Sort::ALL);
                sort.floors(&table.lattice, region)
            }
            false => {
                let low = |floor: &u8| !table.lattice.at_or_below(region, *floor);
                table.owners.iter().copied().filter(low).collect()
            }
        };
        let floors: Vec<u8> = floors.into_iter().filter(|floor| test(*floor)).collect();
        self.random.pick_any(&floors).unwrap_or(region)
    }
}

/// Any byte: a principal's number or the next after all of them, one with the bit
/// set that means endorsed among regions, or one far too high.
pub fn any_byte(random: &mut Random, principals: usize) -> u8 {
    let principal = random.below(principals) as u8;
    match random.below(6) {
        0 => 0,
        1 => principal,
        2 => principals as u8,
        3 => principal | Endorsement::MARK,
        4 => 0xFF,
        _ => random.byte(),
    }
}

#[cfg(test)]
mod tests {
    use super::*;
    use crate::author::Care;
    use crate::sheets::plain_store;

    const PRINCIPALS: usize = 5;

    #[test]
    fn floors_of_every_sort_are_chosen() {
        let mut random = Random::of_case(27, 0);
        let store = plain_store(PRINCIPALS, 1);
        let mut author = Author::new(&mut random, &store, Care::FULL);
        for region in 0..PRINCIPALS as u8 {
            let floors: Vec<u8> = (0..400).map(|_| author.any_floor(region)).collect();
            for floor in 0..PRINCIPALS as u8 {
                assert!(floors.contains(&floor), "{floor} for region {region}");
            }
        }
    }

    #[test]
    fn what_is_ignored_may_be_any_byte() {
        let mut random = Random::of_case(28, 0);
        let bytes: Vec<u8> = (0..20_000)
            .map(|_| any_byte(&mut random, PRINCIPALS))
            .collect();
        assert!((0..=u8::MAX).all(|byte| bytes.contains(&byte)));
        let past = bytes
            .iter()
            .filter(|byte| usize::from(**byte) >= PRINCIPALS);
        assert!((10_000..15_000).contains(&past.count()));
    }
}
