//! Code that is nested too deep or has too many reads in a row (10), where, and
//! the order in which 9 and 10 are judged.

use crate::case::{case, Case};
use sheets::*;

pub fn cases() -> Vec<Case> {
    let mut cases = too_deep();
    cases.extend(innermost_commands());
    cases.extend(neighbours());
    cases.extend(faults_below());
    cases.extend(too_many_reads());
    cases.extend(after_eight_reads());
    cases.extend(byte_order());
    cases.extend(block_order());
    cases
}

const DEEP: &str = "10 nested too deep or a ninth 11, at that byte";
const ANY_DEPTH: &str = "an unknown byte is 9 at any depth";

/// One block of region 0, refused ahead of the run.
fn refused(name: &str, says: &'static str, code: Bytes, number: u32, offset: usize) -> Case {
    case(name, says)
        .block(0, code)
        .refused(number, 0, offset, 0)
}

/// One block of region 0 that is nested too deep at this offset.
fn past(name: &str, code: Bytes, offset: usize) -> Case {
    refused(name, DEEP, code, 10, offset)
}

/// One block of region 0 that finishes and changes nothing.
fn passes(name: &str, code: Bytes, steps: u32) -> Case {
    case(name, DEEP)
        .block(0, code)
        .finishes(steps, &[integer(5), integer(7)].map(kept))
}

/// `depth` commands in all, each but the innermost made by `around`.
pub fn nested(depth: usize, inner: Bytes, around: fn(Bytes) -> Bytes) -> Bytes {
    (1..depth).fold(inner, |inner, _| around(inner))
}

fn in_sequence(inner: Bytes) -> Bytes {
    sequence(&[skip(), inner])
}

fn in_else(inner: Bytes) -> Bytes {
    if_else(literal(truth(false)), skip(), inner)
}

/// Its body does not run.
pub fn in_while(inner: Bytes) -> Bytes {
    while_do(literal(truth(false)), inner)
}

/// Where the innermost of so many commands stands, all but it whiles: each has a
/// byte and a guard before its body.
fn innermost(depth: usize) -> usize {
    (depth - 1) * (1 + LITERAL)
}

/// The first command inside the 32nd is the first that is too deep: a sequence's
/// first command follows its byte and count, an if's then-part its byte and
/// guard, and so does a while's body.
fn too_deep() -> Vec<Case> {
    let by_sequences = |depth| nested(depth, skip(), in_sequence);
    let by_else_parts = |depth| nested(depth, skip(), in_else);
    let then_part = 31 * (1 + LITERAL + 1) + 1 + LITERAL;
    let second = [(0, skip()), (0, nested(33, skip(), in_while))];
    vec![
        passes("depth 32 by sequences", by_sequences(32), 0),
        past("depth 33 by sequences", by_sequences(33), 31 * 3 + 2),
        passes("depth 32 by else-parts", by_else_parts(32), 31),
        past("depth 33 by else-parts", by_else_parts(33), then_part),
        case("depth 33 in the second block", DEEP)
            .blocks(&second)
            .refused(10, 1, innermost(33), 0),
    ]
}

/// Whiles around each other kind of command.
fn innermost_commands() -> Vec<Case> {
    let around = |depth, inner: &Bytes| nested(depth, inner.clone(), in_while);
    let (pair, own) = (sequence(&[skip(), skip()]), set_integer(0, 1));
    let choice = if_else(literal(truth(true)), skip(), skip());
    let at_32 = innermost(32);
    vec![
        passes("a sequence at depth 31", around(31, &pair), 1),
        past("a sequence at depth 32", around(32, &pair), at_32 + 2),
        passes("an if at depth 31", around(31, &choice), 1),
        past(
            "an if at depth 32",
            around(32, &choice),
            at_32 + 1 + LITERAL,
        ),
        passes("an assignment at depth 32", around(32, &own), 1),
        past("an assignment at depth 33", around(33, &own), innermost(33)),
    ]
}

/// Depth is not summed over commands beside each other.
fn neighbours() -> Vec<Case> {
    let deep = |depth| nested(depth, skip(), in_while);
    let yes = || literal(truth(true));
    let three = sequence(&[deep(31), deep(31), deep(31)]);
    let else_part = 1 + LITERAL + 1;
    vec![
        passes("three of depth 32 beside each other", three, 3),
        passes(
            "two parts of depth 32",
            if_else(yes(), deep(31), deep(31)),
            2,
        ),
        past(
            "an else-part of depth 33",
            if_else(yes(), skip(), deep(32)),
            else_part + innermost(32),
        ),
    ]
}

/// A command that is too deep is refused before anything inside or after it; a
/// byte that is no command's is not too deep.
fn faults_below() -> Vec<Case> {
    let around = |depth, inner: &[u8]| nested(depth, inner.to_vec(), in_while);
    let at = innermost(33);
    let left_over = join(&[&around(33, &[0x20]), &[0xFF]]);
    let early = "code that ends early (offset: the block's length)";
    vec![
        past("a bad count at depth 33", around(33, &[0x22, 0]), at),
        past("a bad guard at depth 33", around(33, &[0x24, 0xFF]), at),
        past("bytes after depth 33", left_over, at),
        refused(
            "code 25 at depth 32",
            ANY_DEPTH,
            around(32, &[0x25]),
            9,
            innermost(32),
        ),
        refused("code 25 at depth 33", ANY_DEPTH, around(33, &[0x25]), 9, at),
        refused("code 11 at depth 33", ANY_DEPTH, around(33, &[0x11]), 9, at),
        refused("no byte at depth 33", early, around(33, &[]), 9, at),
    ]
}

/// Slot 8, at the end of seven read views and then a write view.
fn ladder() -> Vec<(u8, Bytes)> {
    let mut slots: Vec<(u8, Bytes)> = (1..8).map(|next| (0, read_view(next))).collect();
    slots.extend([(0, write_view(8)), (0, integer(7))]);
    slots
}

const ROW: &str = "At most 8 bytes 11 stand in a row in one expression.";

fn too_many_reads() -> Vec<Case> {
    let values = ladder().into_iter().map(|(_, value)| value);
    let mut end: Vec<EndSlot> = values.map(kept).collect();
    end[8] = once(write_view(8));
    let ninth = |name, code| refused(name, ROW, code, 10, 1 + 8);
    let second = [(0, skip()), (0, while_do(reads(9, 0), skip()))];
    let mirror = store(&[1], &[(0, read_view(0)), (0, integer(7))]);
    let twice = sequence(&[set(1, reads(8, 0)), set(1, reads(8, 0))]);
    vec![
        case("8 reads in target and in value", ROW)
            .store(store(&[1], &ladder()))
            .block(0, assign(reads(8, 0), reads(8, 0)))
            .finishes(1, &end),
        case("8 reads in each of two commands", ROW)
            .store(mirror)
            .block(0, twice)
            .finishes(2, &[kept(read_view(0)), written(2, read_view(0))]),
        ninth("9 reads in a while's guard", while_do(reads(9, 0), skip())),
        ninth(
            "9 reads in an if's guard",
            if_else(reads(9, 0), skip(), skip()),
        ),
        ninth("9 reads in a target", assign(reads(9, 0), slot(0))),
        ninth("20 reads", while_do(reads(20, 0), skip())),
        ninth("9 bytes 11 and no more", join(&[&[0x24], &[0x11; 9]])),
        case("9 reads in the second block", ROW)
            .blocks(&second)
            .refused(10, 1, 1 + 8, 0),
    ]
}

/// What is wrong after eight reads is judged as it is anywhere.
fn after_eight_reads() -> Vec<Case> {
    let then = |more: &[u8]| join(&[&[0x24], &[0x11; 8], more]);
    let unknown = "An unknown byte or bad count is placed at that byte";
    let early = "code that ends early (offset: the block's length)";
    let literal = "a bad literal at its kind byte";
    vec![
        refused("code 16 after 8 reads", unknown, then(&[0x16]), 9, 9),
        refused("kind 4 after 8 reads", literal, then(&[0x10, 4]), 9, 10),
        refused("no byte after 8 reads", early, then(&[]), 9, 9),
    ]
}

const ORDER: &str = "9 or 10 in byte order; 12; run";

fn nine_reads() -> Bytes {
    while_do(reads(9, 0), skip())
}

/// The first fault in byte order is the answer.
fn byte_order() -> Vec<Case> {
    vec![
        refused(
            "10 before 9 in a block",
            ORDER,
            sequence(&[nine_reads(), vec![0x25]]),
            10,
            2 + 1 + 8,
        ),
        refused(
            "9 before 10 in a block",
            ORDER,
            sequence(&[vec![0x25], nine_reads()]),
            9,
            2,
        ),
    ]
}

/// Block after block, and all of them before any of it runs.
fn block_order() -> Vec<Case> {
    let unknown = || (0, vec![0x25]);
    let whole = set_integer(0, 3);
    let (head, tail) = (whole[..5].to_vec(), whole[5..].to_vec());
    let blocks = |name, blocks: &[(u8, Bytes)]| case(name, ORDER).blocks(blocks);
    vec![
        blocks(
            "10 in block 0 before 9 in block 1",
            &[(0, nine_reads()), unknown()],
        )
        .refused(10, 0, 1 + 8, 0),
        blocks(
            "9 in block 1 before 10 in block 2",
            &[(0, skip()), unknown(), (0, nine_reads())],
        )
        .refused(9, 1, 0, 0),
        blocks(
            "an empty block 0 before 10 in block 1",
            &[(0, vec![]), (0, nine_reads())],
        )
        .refused(9, 0, 0, 0),
        blocks(
            "one assignment cut into two blocks",
            &[(0, head), (0, tail)],
        )
        .refused(9, 0, 5, 0),
        blocks(
            "code is read before it runs",
            &[(0, set_integer(1, 9)), unknown()],
        )
        .refused(9, 1, 0, 0),
        blocks(
            "code is read that no step comes to",
            &[(0, set(0, slot(0))), unknown()],
        )
        .budget(0)
        .refused(9, 1, 0, 0),
    ]
}
