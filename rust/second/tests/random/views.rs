//! Random programmes in which write views go round.

use super::{region_byte, stands_below, Parts, Random, TABLES};
use sheets::*;

/// Streams apart from those of the grammar's calls, which start at 0.
const VIEWS: u64 = 4 << 32;

/// Slots hold write views; blocks put them into slots and write through what a
/// slot holds. For some adversary, each condition that `kept` tries is met about
/// half the time.
pub fn views_go_round(seed: u64) -> Parts {
    let mut author = Author::stream(seed + VIEWS);
    let slots = author.store();
    let blocks = author.blocks();
    Parts {
        masks: author.masks,
        slots,
        blocks,
        rule: 0,
        budget: AMPLE,
        journal: AMPLE_ENTRIES,
    }
}

/// What an author spares the slots that are protected from an adversary: write
/// views of these, in the slots that the adversary may write, in protected ones
/// and in blocks outside reach; and floors at or below the adversary there.
struct Spared {
    in_own: bool,
    in_protected: bool,
    in_blocks: bool,
    by_floors: bool,
}

struct Author {
    random: Random,
    masks: &'static [u32],
    adversary: u8,
    spared: Spared,
    owners: Vec<u8>,
    /// Slots that open with a write view, or that a block puts one into.
    holding: Vec<usize>,
}

impl Author {
    fn stream(number: u64) -> Author {
        let mut random = Random::stream(number);
        // The first table has one principal, and nothing to protect.
        let masks = TABLES[1 + random.below(TABLES.len() - 1)];
        let adversary = random.below(masks.len()) as u8;
        let spared = Spared {
            in_own: random.one_in(2),
            in_protected: random.one_in(2),
            in_blocks: random.one_in(2),
            by_floors: random.one_in(2),
        };
        let count = 2 + random.below(3);
        let owners = (0..count).map(|_| random.below(masks.len()) as u8);
        let owners = owners.collect();
        Author {
            random,
            masks,
            adversary,
            spared,
            owners,
            holding: vec![],
        }
    }

    fn is_outside(&self, principal: u8) -> bool {
        !stands_below(self.masks, principal, self.adversary)
    }

    fn slot(&mut self) -> usize {
        self.random.below(self.owners.len())
    }

    /// For each slot its owner and its value.
    fn store(&mut self) -> Vec<(u8, Bytes)> {
        let owners = self.owners.clone().into_iter().enumerate();
        let slots = owners.map(|(slot, owner)| {
            let spares = if self.is_outside(owner) {
                self.spared.in_protected
            } else {
                self.spared.in_own
            };
            (owner, self.put(slot, spares))
        });
        slots.collect()
    }

    fn blocks(&mut self) -> Vec<FlooredBlock> {
        let count = 1 + self.random.below(3);
        let blocks = (0..count).map(|_| {
            let principal = self.random.below(self.masks.len()) as u8;
            let outside = self.is_outside(principal);
            let endorsed = self.random.one_in(2);
            let floor = if outside && endorsed {
                self.floor_outside()
            } else {
                self.random.floor(self.masks.len(), endorsed)
            };
            let code = self.command(outside && self.spared.in_blocks, 2);
            (region_byte(principal, endorsed), floor, code)
        });
        blocks.collect()
    }

    /// The floor of an endorsed block outside reach: outside it too, as the block's
    /// region is, or at or below the adversary, as the adversary is.
    fn floor_outside(&mut self) -> u8 {
        let all = 0..self.masks.len() as u8;
        let floors = all.filter(|floor| self.is_outside(*floor) == self.spared.by_floors);
        let floors: Vec<u8> = floors.collect();
        floors[self.random.below(floors.len())]
    }

    /// Some value; if it `spares`, no write view of a protected slot.
    fn value(&mut self, spares: bool) -> Bytes {
        let slot = self.slot();
        let spared = spares && self.is_outside(self.owners[slot]);
        match self.random.below(8) {
            0 | 1 => integer(self.random.integer()),
            2 => read_view(slot as i64),
            _ if spared => truth(true),
            _ => write_view(slot as i64),
        }
    }

    /// Some value for this slot.
    fn put(&mut self, slot: usize, spares: bool) -> Bytes {
        let value = self.value(spares);
        if value[0] == write_view(0)[0] {
            self.holding.push(slot);
        }
        value
    }

    fn command(&mut self, spares: bool, depth: usize) -> Bytes {
        match self.random.below(8) {
            0 if depth > 0 => {
                let first = self.command(spares, depth - 1);
                sequence(&[first, self.command(spares, depth - 1)])
            }
            1 if depth > 0 => {
                let part = self.command(spares, depth - 1);
                if_else(literal(truth(true)), part, skip())
            }
            _ => self.assignment(spares),
        }
    }

    /// A literal goes to a slot by its view, or some value to what a slot
    /// names.
    fn assignment(&mut self, spares: bool) -> Bytes {
        let to = self.slot();
        let spared = spares && self.is_outside(self.owners[to]);
        if self.random.one_in(2) && !spared {
            return set(to as i64, literal(self.put(to, spares)));
        }
        let through = match self.holding.len() {
            0 => to,
            count => self.holding[self.random.below(count)],
        };
        let from = self.slot() as i64;
        let value = match self.random.below(16) {
            0 => reads(2, from),
            1..=4 => slot(from),
            5 => equal(slot(from), literal(self.value(spares))),
            6 => sum(slot(from), literal(integer(1))),
            _ => literal(self.value(spares)),
        };
        assign(slot(through as i64), value)
    }
}
