//! The third array: where it stands, how long it is (6), and floors that are not
//! below n (8).

use super::{ARRAY, BELOW_N};
use crate::case::{case, Case};
use sheets::*;

pub fn cases() -> Vec<Case> {
    let mut cases = lengths();
    cases.extend(places());
    cases.extend(bytes());
    cases.extend(numbers_of_principals());
    cases.extend(under_each_rule());
    cases.extend(after_the_sizes());
    cases.extend(before_the_code());
    cases.extend(among_blocks());
    cases
}

fn opening() -> [EndSlot; 2] {
    [integer(5), integer(7)].map(kept)
}

/// So many blocks of one skip each, and so many floors of 0.
fn skips(region: u8, blocks: usize, floors: usize) -> Bytes {
    let (regions, lengths) = (vec![region; blocks], vec![1; blocks]);
    programme_of_arrays(&regions, &lengths, &vec![0; floors], &vec![0x20; blocks])
}

/// One floor for each block, no fewer and no more.
fn lengths() -> Vec<Case> {
    let sheet = |name, sheet| case(name, ARRAY).programme(sheet).refused_early(6);
    let cut = example_programme([0, 1])[..3 + 2 + 4 + 1].to_vec();
    vec![
        sheet("no floors", skips(0, 2, 0)),
        sheet("no floors, endorsed", skips(0x81, 2, 0)),
        sheet("a floor too few", skips(0x81, 2, 1)),
        sheet("a floor too many", skips(0x81, 2, 3)),
        sheet("two floors a block", skips(0x81, 2, 4)),
        sheet("64 blocks, 63 floors", skips(0x81, 64, 63)),
        sheet("no blocks, a floor", skips(0, 0, 1)),
        sheet("programme cut in its floors", cut),
    ]
}

/// P5, its floors at their place and elsewhere: before the lengths, which then
/// are 00FF and 0015 and don't add up; and after the code, whose first two bytes
/// then are the floors, so that the first block starts with byte 03.
fn places() -> Vec<Case> {
    let code = "21 10 030000000000000000 10 002A00000000000000 \
        21 10 030100000000000000 11 10 020000000000000000";
    let sheet = |name, bytes: String| case(name, ARRAY).programme(hex(&bytes)).rule(3);
    vec![
        sheet(
            "floors after the lengths",
            format!("02 2B00 00 81 1500 1600 FF 00 {code}"),
        )
        .finishes(2, &[integer(42), integer(42)].map(once)),
        sheet(
            "floors before the lengths",
            format!("02 2B00 00 81 FF 00 1500 1600 {code}"),
        )
        .refused_early(6),
        sheet(
            "floors after the code",
            format!("02 2B00 00 01 1500 1600 {code} FF 00"),
        )
        .refused(9, 0, 0, 0),
        sheet(
            "floors after the code, endorsed",
            format!("02 2B00 00 81 1500 1600 {code} FF 00"),
        )
        .refused_early(8),
    ]
}

/// n is 2, and the whole byte counts: no bit of it is left out.
fn bytes() -> Vec<Case> {
    let floor = |byte: u8| {
        case(format!("floor {byte:02X}"), BELOW_N)
            .floored(0x81, byte, skip())
            .rule(3)
    };
    let good = [0x00, 0x01].map(|byte| floor(byte).finishes(0, &opening()));
    let bad = [0x02, 0x20, 0x40, 0x80, 0x81, 0xFF];
    let bad = bad.map(|byte| floor(byte).refused_early(8));
    good.into_iter().chain(bad).collect()
}

/// n - 1 is a floor and n is none, where n is 1 and 32 too.
fn numbers_of_principals() -> Vec<Case> {
    let cases = [1, 32].into_iter().flat_map(|n| {
        let floor = |byte: usize| {
            case(format!("floor {byte}, n {n}"), BELOW_N)
                .store(store(&chain(n), &[]))
                .floored(0x80, byte as u8, skip())
        };
        [floor(n - 1).finishes(0, &[]), floor(n).refused_early(8)]
    });
    cases.collect()
}

/// The sheet is judged alike under every rule.
fn under_each_rule() -> Vec<Case> {
    let under = |rule: u32| {
        case(format!("a floor of n, rule {rule}"), BELOW_N)
            .floored(0x81, 2, set_integer(1, 9))
            .rule(rule)
            .refused_early(8)
    };
    RULES.map(under).into()
}

/// What is judged before a floor.
fn after_the_sizes() -> Vec<Case> {
    let bad = || (0x81, 2, skip());
    let long = join(&[&programme_with_floors(&[bad()]), &[0x20]]);
    vec![
        case("k before floor", BELOW_N)
            .floored_blocks(&vec![bad(); 65])
            .refused_early(7),
        case("programme length before floor", BELOW_N)
            .programme(long)
            .refused_early(6),
    ]
}

/// What is judged after all floors.
fn before_the_code() -> Vec<Case> {
    let draft = |name| {
        case(
            name,
            "8 in block order; length sum (6); 9 or 10 in byte order; 12; run",
        )
    };
    let sums = |name, regions: [u8; 2], floors: [u8; 2]| {
        let sheet = programme_of_arrays(&regions, &[7, 7], &floors, &[0x20, 0x20]);
        draft(name).programme(sheet)
    };
    let bad = |code| (0x81, 2, code);
    vec![
        sums("floor before length sum", [0x81, 1], [2, 0]).refused_early(8),
        sums("the last floor before length sum", [1, 0x81], [0, 2]).refused_early(8),
        sums("length sum after good floors", [0x81, 0x81], [0, 1]).refused_early(6),
        sums("length sum after ignored floors", [1, 1], [2, 0xFF]).refused_early(6),
        draft("floor before code")
            .floored_blocks(&[bad(vec![0x25])])
            .refused_early(8),
        draft("the last floor before code")
            .floored_blocks(&[(1, 0, vec![0x25]), bad(skip())])
            .refused_early(8),
        draft("floor before output")
            .floored_blocks(&[bad(skip())])
            .output(1)
            .refused_early(8),
    ]
}

/// Every endorsed block's floor is judged, wherever it stands, and no other's.
fn among_blocks() -> Vec<Case> {
    let blocks = |name, headers: &[(u8, u8)]| {
        let blocks = headers
            .iter()
            .map(|(region, floor)| (*region, *floor, skip()));
        case(name, BELOW_N).floored_blocks(&blocks.collect::<Vec<_>>())
    };
    let mut last_of_64 = [(0x81, 0); 64];
    last_of_64[63].1 = 2;
    vec![
        blocks("a floor, then a region", &[(0x81, 2), (2, 0)]).refused_early(8),
        blocks("the second floor", &[(0x81, 0), (0x81, 2)]).refused_early(8),
        blocks("the 64th floor", &last_of_64).refused_early(8),
        blocks("an ignored floor, then a bad one", &[(1, 2), (0x81, 2)]).refused_early(8),
        blocks("an ignored floor, then a good one", &[(1, 2), (0x81, 1)]).finishes(0, &opening()),
        blocks("a good floor, then an ignored one", &[(0x81, 1), (1, 2)]).finishes(0, &opening()),
    ]
}
