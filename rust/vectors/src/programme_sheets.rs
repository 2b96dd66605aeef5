//! What is wrong with a programme sheet (6 to 8), what just is not, and where
//! its blocks start. Its floors stand in `floors`.

use crate::case::{case, Case};
use sheets::*;

/// Document 02, N4.
const RUNNING: &str = "before each block it equals the lengths of all blocks before it";

pub fn cases() -> Vec<Case> {
    let mut cases = lengths();
    cases.extend(sizes());
    cases.extend(regions());
    cases.extend(sums());
    cases.extend(starts());
    cases.extend(moved_starts());
    cases.extend(far_places());
    cases.push(full_size());
    cases
}

fn opening() -> [EndSlot; 2] {
    [integer(5), integer(7)].map(kept)
}

fn lengths() -> Vec<Case> {
    let sheet = |name, sheet| {
        case(
            name,
            "6 its length isn't what its sizes say, it can't hold them",
        )
        .programme(sheet)
    };
    let good = example_programme([0, 1]);
    let short = good[..good.len() - 1].to_vec();
    let cut = |name, length| sheet(name, good[..length].to_vec());
    vec![
        sheet("programme of no bytes", vec![]).refused_early(6),
        // Sizes that would be past their limits, but aren't all there.
        sheet("programme of one byte", vec![65]).refused_early(6),
        sheet("programme of two bytes", vec![65, 0xFF]).refused_early(6),
        cut("programme of its sizes", 3).refused_early(6),
        cut("programme cut in its regions", 3 + 1).refused_early(6),
        cut("programme cut in its lengths", 3 + 2 + 3).refused_early(6),
        cut("programme cut before its code", 3 + 2 + 4 + 2).refused_early(6),
        sheet("programme one byte short", short).refused_early(6),
        sheet("programme one byte long", join(&[&good, &[0x20]])).refused_early(6),
        // The region's principal is not below n.
        sheet(
            "programme length before regions",
            join(&[&programme(&[(9, skip())]), &[0]]),
        )
        .refused_early(6),
        case(
            "store before programme",
            "Order: 11; store sizes present (1)",
        )
        .store(store(&[1], &[(0, value(4, 0))]))
        .programme(vec![])
        .refused_early(5),
    ]
}

/// 64 blocks, sequences of skips, with so many bytes of code.
fn long_code(bytes: usize) -> Bytes {
    let mut blocks = vec![(0, sequence(&vec![skip(); 255])); 63];
    let rest = bytes - 63 * 257 - 2;
    blocks.push((0, sequence(&vec![skip(); rest])));
    programme(&blocks)
}

/// k is 0 to 64, c is 0 to 16,384; both are judged before the length.
fn sizes() -> Vec<Case> {
    let sheet = |name, sheet| case(name, "7 k or c outside its limit").programme(sheet);
    vec![
        sheet("k 64", programme(&vec![(0, skip()); 64])).finishes(0, &opening()),
        sheet("k 65", programme(&vec![(0, skip()); 65])).refused_early(7),
        sheet("k 65, no more bytes", vec![65, 0, 0]).refused_early(7),
        sheet("c 16384", long_code(16_384)).finishes(0, &opening()),
        sheet("c 16385", long_code(16_385)).refused_early(7),
        sheet("c 16385, no more bytes", vec![0, 0x01, 0x40]).refused_early(7),
        sheet("c 16384, no more bytes", vec![0, 0x00, 0x40]).refused_early(6),
    ]
}

fn regions() -> Vec<Case> {
    let region =
        |name, region| case(name, "8 region's principal not below n").block(region, skip());
    vec![
        region("region 00", 0x00).finishes(0, &opening()),
        region("region 80", 0x80).finishes(0, &opening()),
        region("region 01", 0x01).finishes(0, &opening()),
        region("region 81", 0x81).finishes(0, &opening()),
        region("region 02", 0x02).refused_early(8),
        region("region 82", 0x82).refused_early(8),
        region("region 7F", 0x7F).refused_early(8),
        region("region FF", 0xFF).refused_early(8),
        region("region 20", 0x20).refused_early(8),
        region("region A0", 0xA0).refused_early(8),
        case(
            "region of the second block",
            "8 in block order; length sum (6)",
        )
        .blocks(&[(0, skip()), (2, skip())])
        .refused_early(8),
        case(
            "region before length sum",
            "8 in block order; length sum (6)",
        )
        .programme(programme_of_lengths(&[(0, skip()), (2, skip())], &[7, 7]))
        .refused_early(8),
    ]
}

/// Two blocks of one byte each, saying other lengths.
fn sums() -> Vec<Case> {
    let two = [(0, skip()), (0, skip())];
    let said = |name, lengths: [usize; 2]| {
        case(name, "block lengths (2 bytes, adding up to c)")
            .programme(programme_of_lengths(&two, &lengths))
            .refused_early(6)
    };
    // Three blocks, the first ill-formed, of two bytes in all.
    let bad_code = [(0, vec![0xFF]), (0, skip()), (0, vec![])];
    let before_code = |name, lengths: [usize; 3]| {
        case(name, "length sum (6); 9 or 10 in byte order")
            .programme(programme_of_lengths(&bad_code, &lengths))
            .refused_early(6)
    };
    vec![
        said("lengths one short", [1, 0]),
        said("lengths one short, the first 0", [0, 1]),
        said("lengths of nothing", [0, 0]),
        said("lengths one long, the first 2", [2, 1]),
        said("lengths one long", [1, 2]),
        // 65,536 more than c, so that two bytes cannot hold the sum.
        said("lengths past two bytes", [0xFFFF, 3]),
        before_code("length sum before code", [1, 1, 1]),
        before_code("length sum past two bytes, before code", [1, 0xFFFF, 2]),
    ]
}

/// 64 blocks, no two of a length: skips, then a write of one's own number to
/// a slot of one's own. A length that is skipped or added twice, or a sum that
/// does not start at 0, makes other blocks of the same bytes.
fn starts() -> Vec<Case> {
    let block = |i: i64| {
        let mut commands = vec![skip(); i as usize + 1];
        commands.push(set_integer(i, i));
        (0, sequence(&commands))
    };
    let blocks: Vec<(u8, Bytes)> = (0..64).map(block).collect();
    let last = |code| [&blocks[..63], &[(0, code)]].concat();
    let no_target = assign(literal(integer(0)), literal(integer(0)));
    let case = |name| case(name, RUNNING).store(store(&[1], &vec![(0, integer(-1)); 64]));
    vec![
        case("64 lengths")
            .blocks(&blocks)
            .finishes(64, &(0..64).map(|i| once(integer(i))).collect::<Vec<_>>()),
        case("64 lengths, the last block ill-formed")
            .blocks(&last(sequence(&[skip(), vec![0x1F]])))
            .refused(9, 63, 3, 0),
        case("64 lengths, the last block stopped")
            .blocks(&last(sequence(&[skip(), skip(), no_target])))
            .refused(13, 63, 4, 63),
    ]
}

/// Lengths that add up to c: where the commands end, and elsewhere.
fn moved_starts() -> Vec<Case> {
    let early = "code that ends early (offset: the block's length)";
    let blocks = [(0, skip()), (0, sequence(&[skip(), skip()])), (0, skip())];
    let moved = |name, says, lengths: [usize; 3]| {
        case(name, says).programme(programme_of_lengths(&blocks, &lengths))
    };
    vec![
        moved("lengths 1 4 1", RUNNING, [1, 4, 1]).finishes(0, &opening()),
        moved("lengths 2 3 1", RUNNING, [2, 3, 1]).refused(9, 0, 1, 0),
        moved("lengths 1 5 0", RUNNING, [1, 5, 0]).refused(9, 1, 4, 0),
        moved("lengths 1 3 2", early, [1, 3, 2]).refused(9, 1, 3, 0),
        moved("lengths 0 5 1", early, [0, 5, 1]).refused(9, 0, 0, 0),
        moved("lengths 1 0 5", early, [1, 0, 5]).refused(9, 1, 0, 0),
    ]
}

/// One block of 16,384 bytes, its last command an assignment that region 0
/// may not make; and such an assignment in the last of 64 blocks.
fn far_places() -> Vec<Case> {
    let placed = "block and offset of the command's first byte in its block";
    let write = set_integer(1, 9);
    let rest = 16_384 - 2 - 63 * 257 - 2 - write.len();
    let mut parts = vec![sequence(&vec![skip(); 255]); 63];
    parts.extend([sequence(&vec![skip(); rest]), write.clone()]);
    let mut blocks = vec![(0, set_integer(0, 9)); 63];
    blocks.push((0, write.clone()));
    vec![
        case("14 at the end of 16384 bytes", placed)
            .block(0, sequence(&parts))
            .refused(14, 0, 16_384 - write.len(), 0),
        case("14 in block 63", placed)
            .blocks(&blocks)
            .refused(14, 63, 0, 63),
    ]
}

/// Everything at its limit: 32 principals, 256 slots, 64 blocks, 16,384 bytes
/// of code. The last block's last command writes the last slot.
fn full_size() -> Case {
    let slots = vec![(31, integer(7)); 256];
    let mut blocks = vec![(31, sequence(&vec![skip(); 255])); 63];
    let write = set_integer(255, -1);
    let rest = 16_384 - 63 * 257 - 2 - write.len();
    let mut last = vec![skip(); rest];
    last.push(write);
    blocks.push((31, sequence(&last)));
    let mut end = vec![kept(integer(7)); 256];
    end[255] = once(integer(-1));
    case("all at its limit", "The limits and rule numbers stand once")
        .store(store(&chain(32), &slots))
        .blocks(&blocks)
        .rule(3)
        .finishes(1, &end)
}
