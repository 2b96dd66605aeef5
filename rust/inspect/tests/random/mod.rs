//! Random sheets: good ones, damaged ones, and bytes of no order at all.

// Each test file uses its own share of this.
#![allow(dead_code)]

mod damage;

use model::Value;
use muntyzhap::code::{
    assignment, difference, equal, if_command, less_than, literal, read_through, sequence, skip,
    sum, while_command, Command, Expression, MOST_DEPTH, MOST_NESTED,
};
use muntyzhap::sheet::{programme_sheet, store_sheet, Block, Slot};

/// A fixed stream of numbers (xorshift), so that a failure comes again.
pub struct Random(u64);

impl Random {
    /// The stream of this number, a few steps on, where near numbers differ.
    pub fn stream(number: u64) -> Random {
        let mut random = Random(0x9E37_79B9_7F4A_7C15 ^ (number + 1));
        for _ in 0..8 {
            random.next();
        }
        random
    }

    pub fn next(&mut self) -> u64 {
        self.0 ^= self.0 << 13;
        self.0 ^= self.0 >> 7;
        self.0 ^= self.0 << 17;
        self.0
    }

    pub fn below(&mut self, bound: usize) -> usize {
        (self.next() >> 16) as usize % bound
    }

    pub fn one_in(&mut self, count: usize) -> bool {
        self.below(count) == 0
    }

    pub fn byte(&mut self) -> u8 {
        (self.next() >> 24) as u8
    }

    pub fn bytes(&mut self, most: usize) -> Vec<u8> {
        (0..self.below(most + 1)).map(|_| self.byte()).collect()
    }

    pub fn pick<'a, T>(&mut self, among: &'a [T]) -> &'a T {
        &among[self.below(among.len())]
    }
}

/// A good store sheet and a good programme sheet for it.
pub struct Pair {
    pub principals: usize,
    pub slots: usize,
    pub store: Vec<u8>,
    pub programme: Vec<u8>,
}

impl Random {
    pub fn pair(&mut self) -> Pair {
        let masks = self.masks();
        let (principals, slots) = (masks.len(), self.slots());
        let held: Vec<Slot> = (0..slots)
            .map(|_| {
                let value = self.value(slots);
                Slot::new(self.below(principals) as u8, value).expect("a principal")
            })
            .collect();
        let store = store_sheet(&masks, &held).expect("a store");
        let blocks = self.block_count();
        let most = if blocks > 3 { 1 } else { MOST_DEPTH };
        let blocks: Vec<Block> = (0..blocks)
            .map(|_| self.block(principals, slots, most))
            .collect();
        let mut programme = programme_sheet(&blocks).expect("a programme");
        self.ignored_floors(&mut programme, &blocks);
        Pair {
            principals,
            slots,
            store,
            programme,
        }
    }

    /// Floors of blocks that are not endorsed may be any byte.
    fn ignored_floors(&mut self, programme: &mut [u8], blocks: &[Block]) {
        for (number, block) in blocks.iter().enumerate() {
            if !block.is_endorsed() && self.one_in(3) {
                programme[3 + 3 * blocks.len() + number] = self.byte();
            }
        }
    }

    fn slots(&mut self) -> usize {
        match self.below(20) {
            0 => 0,
            1 => 256,
            _ => 1 + self.below(5),
        }
    }

    fn block_count(&mut self) -> usize {
        match self.below(40) {
            0 => 0,
            1 => 64,
            _ => 1 + self.below(3),
        }
    }

    /// A good order table: a chain either way, a diamond, a kite, or a bottom and
    /// a top with any number between.
    fn masks(&mut self) -> Vec<u32> {
        let most = if self.one_in(24) { 32 } else { 4 };
        let size = 1 + self.below(most);
        match self.below(5) {
            0 => (0..size).map(|one| u32::MAX >> (31 - one)).collect(),
            1 => (0..size)
                .map(|one| (u32::MAX >> (32 - size)) & (u32::MAX << one))
                .collect(),
            2 => vec![0b1001, 0b1010, 0b1111, 0b1000],
            3 => vec![0b00001, 0b00011, 0b00101, 0b01111, 0b11111],
            _ => {
                let size = size.max(2);
                let between = 1..size - 1;
                let mut masks = vec![1];
                masks.extend(between.map(|one| 1 | 1 << one));
                masks.push(u32::MAX >> (32 - size));
                masks
            }
        }
    }

    pub fn value(&mut self, slots: usize) -> Value {
        match self.below(if slots == 0 { 2 } else { 4 }) {
            0 => Value::Integer(self.integer()),
            1 => Value::Truth(self.one_in(2)),
            2 => Value::ReadView(self.below(slots) as u8),
            _ => Value::WriteView(self.below(slots) as u8),
        }
    }

    fn integer(&mut self) -> i64 {
        match self.below(6) {
            0 => i64::MIN,
            1 => i64::MAX,
            2 => self.next() as i64,
            _ => self.below(200) as i64 - 100,
        }
    }

    fn block(&mut self, principals: usize, slots: usize, most: usize) -> Block {
        let depth = match self.one_in(10) {
            true => most,
            false => most.min(1 + self.below(4)),
        };
        let mut room = 12;
        let command = self.command(depth, slots, &mut room);
        let region = self.below(principals) as u8;
        match self.one_in(3) {
            true => Block::endorsed(region, self.below(principals) as u8, command),
            false => Block::new(region, command),
        }
        .expect("a block")
    }

    /// A command that nests so deep, with about as many commands as there is room
    /// for.
    fn command(&mut self, depth: usize, slots: usize, room: &mut usize) -> Command {
        *room = room.saturating_sub(1);
        if depth == 1 {
            return match self.one_in(4) {
                true => skip(),
                false => {
                    let (target, value) = (self.expression(slots), self.expression(slots));
                    assignment(target, value)
                }
            };
        }
        let deep = self.command(depth - 1, slots, room);
        let other = if *room > 0 {
            1 + self.below(depth - 1)
        } else {
            1
        };
        match self.below(4) {
            0 => while_command(self.expression(slots), deep),
            1 => if_command(
                self.expression(slots),
                deep,
                self.command(other, slots, room),
            ),
            2 => if_command(
                self.expression(slots),
                self.command(other, slots, room),
                deep,
            ),
            _ => {
                let mut commands = vec![deep];
                for _ in 0..=self.below(2) {
                    let command = self.command(other, slots, room);
                    let place = self.below(commands.len() + 1);
                    commands.insert(place, command);
                }
                sequence(&commands)
            }
        }
        .expect("a command")
    }

    pub fn expression(&mut self, slots: usize) -> Expression {
        let depth = if self.one_in(12) {
            MOST_NESTED
        } else {
            self.below(3)
        };
        self.deep_expression(depth, slots)
    }

    fn deep_expression(&mut self, depth: usize, slots: usize) -> Expression {
        if depth == 0 {
            return literal(self.value(slots));
        }
        let deep = self.deep_expression(depth - 1, slots);
        if self.one_in(2) {
            return read_through(deep).expect("an expression");
        }
        let other = self.below(depth.min(2));
        let other = self.deep_expression(other, slots);
        let (left, right) = if self.one_in(2) {
            (deep, other)
        } else {
            (other, deep)
        };
        match self.below(4) {
            0 => sum(left, right),
            1 => difference(left, right),
            2 => less_than(left, right),
            _ => equal(left, right),
        }
        .expect("an expression")
    }
}
