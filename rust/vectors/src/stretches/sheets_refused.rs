//! Bytes of the pause sheet that are not used, and arrays that the sheet can't hold.

use super::{crossed_opening, spent_from, REFUSED};
use crate::case::{Case, Draft};
use sheets::*;

pub fn cases() -> Vec<Case> {
    let mut cases = unused();
    cases.extend(lengths());
    cases.extend(unpacked());
    cases
}

/// To the if, to the body, and to the first block's command; with the offsets.
const PATHS: [(u8, &[Taken], usize); 3] = [
    (1, &[(1, TOP)], 3),
    (1, &[(1, TOP), (ELSE_PART, LEFT), (BODY, BOTTOM)], 51),
    (0, &[], 0),
];

fn carried_on(name: String, sheet: Bytes) -> Draft {
    spent_from(name, REFUSED, output(&crossed_opening()), sheet, 4)
}

/// "an unused byte isn't 0": from the first after the arrays to the last of all.
fn unused() -> Vec<Case> {
    let cases = PATHS.into_iter().flat_map(|(block, path, offset)| {
        let length = path.len();
        let good = pause(4, block, path);
        let first = PAUSE_HEAD + 2 * length;
        let places = [first, first + 1, 131, 254, 255];
        let bad = places.into_iter().zip([1, 128, 255, 3, 1]).map({
            let good = good.clone();
            move |(place, byte)| {
                let mut sheet = good.clone();
                sheet[place] = byte;
                let name = format!("{length} entries, byte {place} is {byte}");
                carried_on(name, sheet).refused_early(19)
            }
        });
        let kept = carried_on(format!("{length} entries, all unused are 0"), good).pauses(
            4,
            block,
            path,
            offset,
            &crossed_opening(),
        );
        bad.chain([kept])
    });
    cases.collect()
}

/// A path length that isn't the path's: one less leaves a byte over, one more takes
/// a label for a child; and such as the sheet can't hold.
fn lengths() -> Vec<Case> {
    let (_, path, _) = PATHS[1];
    let cases = [0, 1, 2, 4, 5, 31, 124, 125, 126, 127, 128, 254, 255].map(|length: u8| {
        let mut sheet = pause(4, 1, path);
        sheet[4] = length;
        let name = format!("3 entries, path length {length}");
        carried_on(name, sheet).refused_early(19)
    });
    // With nothing behind the head.
    let bare = [1, 125, 126, 255].map(|length: u8| {
        let mut sheet = pause(4, 0, &[]);
        sheet[4] = length;
        let name = format!("no entries, path length {length}");
        carried_on(name, sheet).refused_early(19)
    });
    cases.into_iter().chain(bare).collect()
}

/// The arrays are packed: labels elsewhere than right behind the children.
fn unpacked() -> Vec<Case> {
    let (children, labels) = ([1, ELSE_PART, BODY], [TOP, LEFT, BOTTOM]);
    let laid_out = |name: &str, places: [(usize, u8); 6]| {
        let mut sheet = pause(4, 1, &[]);
        sheet[4] = 3;
        for (place, byte) in places {
            sheet[place] = byte;
        }
        carried_on(name.into(), sheet)
    };
    let at = |start: usize, step: usize, bytes: [u8; 3]| {
        let places = [0, 1, 2].map(|each| start + step * each);
        [0, 1, 2].map(|each| (places[each], bytes[each]))
    };
    let both = |one: [(usize, u8); 3], other: [(usize, u8); 3]| {
        [one[0], one[1], one[2], other[0], other[1], other[2]]
    };
    let path = PATHS[1].1;
    vec![
        laid_out("packed", both(at(6, 1, children), at(9, 1, labels))).pauses(
            4,
            1,
            path,
            51,
            &crossed_opening(),
        ),
        laid_out(
            "labels from byte 37",
            both(at(6, 1, children), at(37, 1, labels)),
        )
        .refused_early(19),
        laid_out(
            "labels from byte 131",
            both(at(6, 1, children), at(131, 1, labels)),
        )
        .refused_early(19),
        laid_out("entry by entry", both(at(6, 2, children), at(7, 2, labels))).refused_early(19),
        laid_out(
            "labels before children",
            both(at(6, 1, labels), at(9, 1, children)),
        )
        .refused_early(19),
    ]
}
