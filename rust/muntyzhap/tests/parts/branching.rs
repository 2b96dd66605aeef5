//! A programme whose pauses are worked by hand.

use super::stretch::{Given, Stretch, PAUSE};
use super::*;
use muntyzhap::code::{if_command, less_than, sequence, skip, sum, while_command};
use muntyzhap::raw::Answer;
use muntyzhap::{Checkpoint, Rule};

/// Over document 01's store, the low principal's block: slot 0 := 1; if true then
/// slot 0 := 2 else skip. The high one's: if slot 0 < 2 then skip else (slot 1 :=
/// 8; while slot 0 < 4 do slot 0 := slot 0 + 1).
pub fn branching() -> Vec<u8> {
    let second = if_command(truth(true), assign(0, integer(2)), skip());
    let low = sequence(&[assign(0, integer(1)), built(second)]);
    let more = assign(0, built(sum(read(0), integer(1))));
    let counted = while_command(built(less_than(read(0), integer(4))), more);
    let otherwise = sequence(&[assign(1, integer(8)), built(counted)]);
    let guard = built(less_than(read(0), integer(2)));
    let high = if_command(guard, skip(), built(otherwise));
    programme_of(&[block(LOW, built(low)), block(HIGH, built(high))])
}

/// A child taken, and the label of the branch inside it.
pub type Taken = (u8, u8);

/// "then-part 0, else-part 1, body 0"
pub const THEN: u8 = 0;
pub const ELSE: u8 = 1;
pub const BODY: u8 = 0;

/// A command whose step is next: its block, its offset there, and the path to it.
type Next = (usize, usize, &'static [Taken]);

/// Where the programme stands before each of its steps. A sequence has two bytes
/// before its first command, a literal has ten, a read eleven. The second block's
/// guards read a slot of the low principal's.
pub const STOPS: [Next; 10] = [
    (0, 2, &[(0, HIGH)]),
    (0, 23, &[(1, HIGH)]),
    (0, 34, &[(1, HIGH), (THEN, HIGH)]),
    (1, 0, &[]),
    (1, 26, &[(ELSE, LOW), (0, LOW)]),
    LOOP,
    LOOP_BODY,
    LOOP,
    LOOP_BODY,
    LOOP,
];
const LOOP: Next = (1, 47, &[(ELSE, LOW), (1, LOW)]);
const LOOP_BODY: Next = (1, 70, &[(ELSE, LOW), (1, LOW), (BODY, LOW)]);

/// The steps that it takes.
pub const ALL: u32 = STOPS.len() as u32;

/// What a slot holds, and how often it was written.
pub type Written = (Integer, u32);

/// Both slots before each step, and at the end.
pub const HELD: [[Written; 2]; 11] = [
    [(5, 0), (7, 0)],
    [(1, 1), (7, 0)],
    [(1, 1), (7, 0)],
    [(2, 2), (7, 0)],
    [(2, 2), (7, 0)],
    [(2, 2), (8, 1)],
    [(2, 2), (8, 1)],
    [(3, 3), (8, 1)],
    [(3, 3), (8, 1)],
    [(4, 4), (8, 1)],
    [(4, 4), (8, 1)],
];

/// "The sheet has steps so far (4 bytes), path length (1), block number (1), then
/// two parallel arrays of one byte an entry [..]. Unused bytes are 0."
pub fn pause_sheet(steps: u32, block: usize, path: &[Taken]) -> Vec<u8> {
    let sizes = [path.len() as u8, block as u8];
    let mut sheet = [steps.to_le_bytes().as_slice(), &sizes].concat();
    sheet.extend(path.iter().map(|(child, _)| child));
    sheet.extend(path.iter().map(|(_, label)| label));
    sheet.resize(PAUSE, 0);
    sheet
}

pub fn output(held: [Written; 2]) -> Vec<u8> {
    let slot = |(integer, writes): Written| {
        let value = Value::Integer(integer).to_bytes();
        [value.as_slice(), &writes.to_le_bytes()].concat()
    };
    held.map(slot).concat()
}

/// What the programme leaves when it pauses before a step.
pub fn paused(steps: u32) -> Stretch {
    let (block, offset, path) = STOPS[steps as usize];
    Stretch {
        answer: Answer {
            number: 17,
            block,
            offset,
            steps,
        },
        out: output(HELD[steps as usize]),
        pause: pause_sheet(steps, block, path),
    }
}

/// What it leaves when it finishes: the pause buffer is as it was.
pub fn finished() -> Stretch {
    Stretch {
        answer: Answer {
            number: 0,
            block: 2,
            offset: 0,
            steps: ALL,
        },
        out: output(HELD[STOPS.len()]),
        ..Stretch::lent(OUTPUT, PAUSE)
    }
}

/// What it leaves with this budget under rule 0.
pub fn left(budget: u32) -> Stretch {
    match budget < ALL {
        true => paused(budget),
        false => finished(),
    }
}

/// The checkpoint that it leaves before a step.
pub fn checkpoint(steps: u32) -> Checkpoint {
    let Stretch { out, pause, .. } = paused(steps);
    Checkpoint::from_bytes(&[pause, out].concat()).expect("a checkpoint's bytes")
}

/// Both sheets for a stretch under rule 0.
pub fn given<'a>(store: &'a [u8], programme: &'a [u8], budget: u32) -> Given<'a> {
    Given {
        store,
        programme,
        rule: Rule::AccessControl.number(),
        budget,
    }
}
