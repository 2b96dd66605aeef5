//! Document 02, N3, at random: "A payload becomes 8 bytes and a value 9, in
//! sheets, code and output. Integers are signed 64-bit."

mod play;
mod random;

use play::*;
use random::*;
use sheets::*;

/// Streams apart from those of the grammar's calls, which start at 0.
const PAYLOADS: u64 = 6 << 32;

/// Small numbers, the same with one bit more, and integers of all sizes.
fn payload(random: &mut Random) -> i64 {
    let bound = if random.one_in(2) { 3 } else { 260 };
    let small = random.below(bound) as i64;
    match random.below(3) {
        0 => small,
        1 => small | 1 << random.below(64),
        _ => random.integer(),
    }
}

fn is_good(kind: u8, payload: i64, slots: usize) -> bool {
    match kind {
        0 => true,
        1 => payload == 0 || payload == 1,
        2 | 3 => (0..slots as i64).contains(&payload),
        _ => false,
    }
}

/// In a sheet and in code any kind and payload are judged alike, and what is
/// good comes out as it went in.
#[test]
fn any_payload_is_judged_and_kept() {
    let mut random = Random::stream(PAYLOADS);
    // For each kind how many were ill-formed, and how many good.
    let mut counts = [[0; 2]; 5];
    let mut wide = 0;
    for _ in 0..20_000 {
        let kind = random.below(5) as u8;
        let payload = payload(&mut random);
        let count = if random.one_in(8) { 256 } else { 2 };
        let good = is_good(kind, payload, count);
        let tried = value(kind, payload);
        let mut slots = vec![(0, integer(5)); count];
        let code = set(0, literal(tried.clone()));
        let in_code = call_block(&store(&[1], &slots), 0, code, 3);
        slots[count - 1].1 = tried.clone();
        let in_sheet = call(&store(&[1], &slots), &programme(&[]), 3);
        let mut end = vec![kept(integer(5)); count];
        if good {
            end[0] = once(tried.clone());
            in_code.finishes(1, &end);
            end[0] = kept(integer(5));
            end[count - 1] = kept(tried);
            in_sheet.finishes(0, &end);
        } else {
            in_code.refused(9, 0, 1 + LITERAL + 1, 0);
            in_sheet.refused(5, 0, 0, 0);
        }
        counts[usize::from(kind)][usize::from(good)] += 1;
        if kind == 0 && i32::try_from(payload).is_err() {
            wide += 1;
        }
    }
    let came = counts.map(|kind| kind.map(|count| count > 100));
    let [both, always, never] = [[true, true], [false, true], [true, false]];
    assert_eq!(came, [always, both, both, both, never], "{counts:?}");
    assert!(wide > 1_000, "{wide}");
}
