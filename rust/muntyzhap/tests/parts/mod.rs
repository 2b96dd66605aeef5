//! Parts of sheets that are within their limits.

// Each test file uses its own share of this.
#![allow(dead_code)]

pub mod branching;
pub mod lent;
pub mod stretch;

use muntyzhap::code::{assign, literal, read, Code, Command, Expression};
use muntyzhap::sheet::{programme_sheet, store_sheet, Block, Slot};
use muntyzhap::{check_programme, BuildError, Integer, Place, Refusal, Stop, Value};

pub const LOW: u8 = 0;
pub const HIGH: u8 = 1;
/// Principal 1 stands above principal 0.
pub const MASKS: [u32; 2] = [0b01, 0b11];

#[track_caller]
pub fn built<T>(part: Result<T, BuildError>) -> T {
    part.expect("a part within its limits")
}

pub fn slot(owner: u8, value: Value) -> Slot {
    built(Slot::new(owner, value))
}

/// One slot of each principal, with these integers.
pub fn slots_of(integers: [Integer; 2]) -> [Slot; 2] {
    let [low, high] = integers.map(Value::Integer);
    [slot(LOW, low), slot(HIGH, high)]
}

/// Document 01's store: one slot of each principal, with the integers 5 and 7.
pub fn slots() -> [Slot; 2] {
    slots_of([5, 7])
}

pub fn store_of(masks: &[u32], slots: &[Slot]) -> Vec<u8> {
    built(store_sheet(masks, slots))
}

pub fn block(region: u8, code: impl Into<Code>) -> Block {
    built(Block::new(region, code))
}

/// A block endorsed down to a floor.
pub fn endorsed(region: u8, floor: u8, code: impl Into<Code>) -> Block {
    built(Block::endorsed(region, floor, code))
}

pub fn programme_of(blocks: &[Block]) -> Vec<u8> {
    built(programme_sheet(blocks))
}

/// A programme of one block.
pub fn programme_by(region: u8, command: Command) -> Vec<u8> {
    programme_of(&[block(region, command)])
}

/// Slot 0 := an integer by the low principal, then slot 1 := slot 0 by the high
/// one.
pub fn copying(copied: Integer) -> Vec<u8> {
    programme_of(&[
        block(LOW, assign(0, integer(copied))),
        block(HIGH, assign(1, read(0))),
    ])
}

/// Document 01's programme: the integer is 42.
pub fn two_blocks() -> Vec<u8> {
    copying(42)
}

/// The output's bytes for a store of two slots: "a slot takes 13 bytes".
pub const OUTPUT: usize = 2 * 13;

/// What the library says of one block's code, for a store of two principals and
/// two slots.
pub fn check_code(code: impl Into<Code>) -> Result<(), Refusal> {
    check_programme(&programme_of(&[block(LOW, code)]), 2, 2)
}

#[track_caller]
pub fn assert_told(error: BuildError, words: &str) {
    assert_eq!(error.to_string(), words);
}

pub fn stop(block: usize, offset: usize, steps: u32) -> Stop {
    let place = Place { block, offset };
    Stop { place, steps }
}

/// "Integers are signed 64-bit": the ends, those of 32 bits and their
/// neighbours, and a ratio scaled by 10 to the 12th, of either sign.
pub const TELLING: [Integer; 14] = [
    Integer::MIN,
    Integer::MIN + 1,
    Integer::MAX - 1,
    Integer::MAX,
    i32::MIN as Integer - 1,
    i32::MIN as Integer,
    i32::MAX as Integer,
    i32::MAX as Integer + 1,
    u32::MAX as Integer,
    u32::MAX as Integer + 1,
    -1,
    0,
    815_042_637_915,
    -815_042_637_915,
];

pub fn integer(integer: Integer) -> Expression {
    literal(Value::Integer(integer))
}

pub fn truth(truth: bool) -> Expression {
    literal(Value::Truth(truth))
}
