//! Random calls whose sheets are built by the grammar, for every test file that
//! plays such calls.

// Each test file uses its own share of this.
#![allow(dead_code)]

pub mod flows;
pub mod views;

use sheets::*;

/// A fixed stream of numbers (xorshift), so that a failure comes again.
pub struct Random(u64);

impl Random {
    /// The stream of this number, a few steps on, where near numbers differ.
    pub fn stream(number: u64) -> Random {
        let mut random = Random(0x9E37_79B9_7F4A_7C15 ^ (number + 1));
        for _ in 0..8 {
            random.next();
        }
        random
    }

    pub fn next(&mut self) -> u64 {
        self.0 ^= self.0 << 13;
        self.0 ^= self.0 >> 7;
        self.0 ^= self.0 << 17;
        self.0
    }

    pub fn below(&mut self, bound: usize) -> usize {
        (self.next() >> 16) as usize % bound
    }

    pub fn one_in(&mut self, count: usize) -> bool {
        self.below(count) == 0
    }

    /// Integers of all sizes: small ones, both ends, and any number of bits.
    pub fn integer(&mut self) -> i64 {
        match self.below(8) {
            0..=2 => self.below(201) as i64 - 100,
            3 => LEAST,
            4 => GREATEST,
            _ => self.next() as i64 >> self.below(64),
        }
    }

    /// The byte of some operation.
    pub fn operation(&mut self) -> u8 {
        OPERATIONS[self.below(OPERATIONS.len())]
    }

    /// A floor byte for a block: some principal, and where the block is not
    /// endorsed now and then n, FF or any other byte.
    pub fn floor(&mut self, principals: usize, endorsed: bool) -> u8 {
        match self.below(8) {
            0 if !endorsed => principals as u8,
            1 if !endorsed => 0xFF,
            2 if !endorsed => self.next() as u8,
            _ => self.below(principals) as u8,
        }
    }

    /// Entries enough for every run, and now and then about as many as a run
    /// here writes.
    pub fn journal(&mut self) -> usize {
        match self.one_in(3) {
            true => self.below(6),
            false => AMPLE_ENTRIES,
        }
    }

    pub fn bytes(&mut self, most: usize) -> Bytes {
        let length = self.below(most + 1);
        (0..length).map(|_| self.next() as u8).collect()
    }
}

/// Region bytes from here on are of endorsed blocks.
pub const ENDORSED: u8 = 0x80;

/// A region byte, which says whether the block is endorsed.
pub fn region_byte(principal: u8, endorsed: bool) -> u8 {
    principal + if endorsed { ENDORSED } else { 0 }
}

pub fn is_endorsed(block: &FlooredBlock) -> bool {
    block.0 >= ENDORSED
}

/// The principal for which a block runs.
pub fn region(block: &FlooredBlock) -> u8 {
    block.0 % ENDORSED
}

pub fn stands_below(masks: &[u32], lower: u8, upper: u8) -> bool {
    masks[usize::from(upper)] >> lower & 1 == 1
}

pub fn principals(masks: &[u32]) -> impl Iterator<Item = u8> + Clone {
    0..masks.len() as u8
}

/// The principal that is above all, or below all.
fn end_of(masks: &[u32], stands: fn(&[u32], u8, u8) -> bool) -> u8 {
    let mut all = principals(masks);
    let end = all.find(|one| principals(masks).all(|other| stands(masks, *one, other)));
    end.expect("a good table")
}

pub fn top(masks: &[u32]) -> u8 {
    end_of(masks, |masks, upper, lower| {
        stands_below(masks, lower, upper)
    })
}

pub fn bottom(masks: &[u32]) -> u8 {
    end_of(masks, stands_below)
}

/// Good tables: one principal, two ways to number a pair, a diamond, a kite, a
/// chain.
pub const TABLES: [&[u32]; 6] = [
    &[1],
    &PAIR,
    &[0b11, 0b10],
    &DIAMOND,
    &KITE,
    &[0b111, 0b110, 0b100],
];

/// Sheets built by the grammar for a store of this many slots.
struct Maker {
    random: Random,
    principals: usize,
    slots: usize,
}

impl Maker {
    fn value(&mut self) -> Bytes {
        let kinds = if self.slots == 0 { 2 } else { 4 };
        match self.random.below(kinds) {
            0 => integer(self.random.integer()),
            1 => truth(self.random.one_in(2)),
            2 => read_view(self.random.below(self.slots) as i64),
            _ => write_view(self.random.below(self.slots) as i64),
        }
    }

    /// For each slot an owner and a value.
    fn store(&mut self) -> Vec<(u8, Bytes)> {
        let mut slots = Vec::new();
        for _ in 0..self.slots {
            slots.push((self.random.below(self.principals) as u8, self.value()));
        }
        slots
    }

    /// Some expression, often one that suits a guard or a target.
    fn expression(&mut self, suited: Bytes) -> Bytes {
        match self.random.below(6) {
            0 => literal(self.value()),
            1 if self.slots > 0 => {
                let slot = self.random.below(self.slots) as i64;
                reads(1 + self.random.below(3), slot)
            }
            2 => self.operation(2),
            _ => literal(suited),
        }
    }

    /// An operation, with up to so many around an operand of its own.
    fn operation(&mut self, depth: usize) -> Bytes {
        let byte = self.random.operation();
        let left = self.operand(depth);
        operation(byte, left, self.operand(depth))
    }

    /// Mostly an integer, as most operations need it.
    fn operand(&mut self, depth: usize) -> Bytes {
        match self.random.below(8) {
            0 | 1 if depth > 0 => self.operation(depth - 1),
            2 => literal(self.value()),
            3 | 4 if self.slots > 0 => slot(self.random.below(self.slots) as i64),
            _ => literal(integer(self.random.integer())),
        }
    }

    fn guard(&mut self) -> Bytes {
        let holds = truth(self.random.one_in(2));
        self.expression(holds)
    }

    fn assignment(&mut self) -> Bytes {
        let view = if self.slots == 0 {
            integer(0)
        } else {
            write_view(self.random.below(self.slots) as i64)
        };
        let target = self.expression(view);
        let suited = self.value();
        assign(target, self.expression(suited))
    }

    fn command(&mut self, depth: usize) -> Bytes {
        let forms = if depth == 0 { 4 } else { 8 };
        match self.random.below(forms) {
            0 => skip(),
            1..=3 => self.assignment(),
            4 | 5 => {
                let count = 2 + self.random.below(2);
                let parts: Vec<Bytes> = (0..count).map(|_| self.command(depth - 1)).collect();
                sequence(&parts)
            }
            6 => {
                let guard = self.guard();
                let then_part = self.command(depth - 1);
                if_else(guard, then_part, self.command(depth - 1))
            }
            _ => {
                let guard = self.guard();
                while_do(guard, self.command(depth - 1))
            }
        }
    }

    fn programme(&mut self) -> Vec<FlooredBlock> {
        let mut blocks = Vec::new();
        for _ in 0..self.random.below(4) {
            let principal = self.random.below(self.principals) as u8;
            let endorsed = self.random.one_in(3);
            let floor = self.random.floor(self.principals, endorsed);
            let region = region_byte(principal, endorsed);
            blocks.push((region, floor, self.command(3)));
        }
        blocks
    }
}

/// The parts of a call whose sheets are good.
#[derive(Clone)]
pub struct Parts {
    pub masks: &'static [u32],
    /// For each slot its owner and its value.
    pub slots: Vec<(u8, Bytes)>,
    pub blocks: Vec<FlooredBlock>,
    pub rule: u32,
    pub budget: u32,
    pub journal: usize,
}

impl Parts {
    pub fn call(&self) -> Call {
        let store = store(self.masks, &self.slots);
        let programme = programme_with_floors(&self.blocks);
        let call = call(&store, &programme, self.rule);
        call.budget(self.budget).journal(self.journal)
    }
}

pub fn good_parts(seed: u64) -> Parts {
    let mut random = Random::stream(seed);
    let masks = TABLES[random.below(TABLES.len())];
    let slots = random.below(6);
    let budget = random.below(40) as u32;
    let rule = RULES[random.below(RULES.len())];
    let mut maker = Maker {
        random,
        principals: masks.len(),
        slots,
    };
    Parts {
        masks,
        slots: maker.store(),
        blocks: maker.programme(),
        rule,
        budget,
        journal: maker.random.journal(),
    }
}

/// A call whose sheets are good.
pub fn good_call(seed: u64) -> Call {
    good_parts(seed).call()
}
