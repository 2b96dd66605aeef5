//! Random calls in which values flow between slots of several owners.

use super::{region_byte, top, Parts, Random, TABLES};
use sheets::*;

/// Streams apart from those of the grammar's calls, which start at 0.
const FLOWS: u64 = 5 << 32;

/// Slots hold truth values, mostly; blocks copy them up and down, and branch on
/// them. The budget is small.
pub fn flowing_parts(seed: u64) -> Parts {
    let mut random = Random::stream(seed + FLOWS);
    // The first table has one principal, and labels that are all the same.
    let masks = TABLES[1 + random.below(TABLES.len() - 1)];
    let budget = random.below(12) as u32;
    let slots = 2 + random.below(3);
    let mut author = Author {
        random,
        masks,
        slots,
    };
    Parts {
        masks,
        slots: author.store(),
        blocks: author.blocks(),
        rule: 0,
        budget,
        journal: author.random.journal(),
    }
}

struct Author {
    random: Random,
    masks: &'static [u32],
    slots: usize,
}

impl Author {
    fn principal(&mut self) -> u8 {
        self.random.below(self.masks.len()) as u8
    }

    fn slot(&mut self) -> i64 {
        self.random.below(self.slots) as i64
    }

    fn value(&mut self) -> Bytes {
        match self.random.below(8) {
            0 => integer(self.random.integer()),
            1 => write_view(self.slot()),
            _ => truth(self.random.one_in(2)),
        }
    }

    /// For each slot its owner and its value.
    fn store(&mut self) -> Vec<(u8, Bytes)> {
        let slots = 0..self.slots;
        slots.map(|_| (self.principal(), self.value())).collect()
    }

    /// Often the region is the top's; some blocks are endorsed.
    fn blocks(&mut self) -> Vec<FlooredBlock> {
        let count = 1 + self.random.below(3);
        let blocks = (0..count).map(|_| {
            let principal = if self.random.one_in(2) {
                top(self.masks)
            } else {
                self.principal()
            };
            let endorsed = self.random.one_in(3);
            let floor = self.random.floor(self.masks.len(), endorsed);
            let region = region_byte(principal, endorsed);
            (region, floor, self.command(2))
        });
        blocks.collect()
    }

    fn command(&mut self, depth: usize) -> Bytes {
        match self.random.below(8) {
            0 if depth > 0 => {
                let first = self.command(depth - 1);
                sequence(&[first, self.command(depth - 1)])
            }
            1 | 2 if depth > 0 => {
                let guard = self.guard();
                let then_part = self.command(depth - 1);
                if_else(guard, then_part, self.command(depth - 1))
            }
            3 if depth > 0 => {
                let guard = self.guard();
                while_do(guard, self.command(depth - 1))
            }
            _ => {
                let target = self.slot();
                let value = match self.random.below(8) {
                    0..=3 => slot(self.slot()),
                    4 => self.operation(),
                    _ => literal(self.value()),
                };
                set(target, value)
            }
        }
    }

    /// What a slot holds, or whether two hold the same.
    fn guard(&mut self) -> Bytes {
        let one = slot(self.slot());
        match self.random.below(4) {
            0 => equal(one, slot(self.slot())),
            _ => one,
        }
    }

    /// Of two slots, or of a slot and a literal: low if either is.
    fn operation(&mut self) -> Bytes {
        let byte = match self.random.one_in(3) {
            true => self.random.operation(),
            false => EQUAL,
        };
        let (one, held) = (slot(self.slot()), literal(self.value()));
        match self.random.below(3) {
            0 => operation(byte, held, one),
            1 => operation(byte, one, held),
            _ => operation(byte, one, slot(self.slot())),
        }
    }
}
