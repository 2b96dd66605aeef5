//! The list has what it should of runs in stretches.

use super::*;
use ::sheets::{Bytes, PAUSE, PAUSE_HEAD};

fn stretches() -> Vec<Case> {
    let mut cases = list::cases();
    cases.retain(|case| case.stretch.is_some());
    cases
}

/// What a case carries on from.
fn old(case: &Case) -> Option<&Checkpoint> {
    case.stretch.as_ref()?.old.as_ref()
}

/// The pause sheets that cases pause with.
fn written_sheets() -> Vec<Bytes> {
    let cases = stretches();
    cases
        .into_iter()
        .filter_map(|case| case.expected.pause)
        .collect()
}

/// Neither call is refused by 18, and the first never by 19.
#[test]
fn every_number_comes_up_that_can() {
    let came = |of_start: bool| -> BTreeSet<u32> {
        let cases = stretches();
        let some = cases.iter().filter(|case| old(case).is_none() == of_start);
        some.map(|case| case.expected.answer.number).collect()
    };
    let start: BTreeSet<u32> = (0..=17).collect();
    assert_eq!(came(true), start);
    let carry_on: BTreeSet<u32> = start.into_iter().chain([19]).collect();
    assert_eq!(came(false), carry_on);
}

/// Every length of a path up to 31, each byte that can be a child, blocks from the
/// first to the last.
#[test]
fn paths_of_many_sorts_are_written() {
    let sheets = written_sheets();
    let lengths: BTreeSet<u8> = sheets.iter().map(|sheet| sheet[4]).collect();
    for length in [0, 1, 2, 3, 4, 15, 16, 29, 30, 31] {
        assert!(lengths.contains(&length), "{lengths:?}");
    }
    assert_eq!(lengths.last(), Some(&31));
    let blocks: BTreeSet<u8> = sheets.iter().map(|sheet| sheet[5]).collect();
    assert!([0, 1, 2, 3, 63].iter().all(|block| blocks.contains(block)));
    let long = sheets.iter().filter(|sheet| sheet[4] > 0);
    let children: BTreeSet<u8> = long.map(|sheet| sheet[PAUSE_HEAD]).collect();
    assert!([0, 1, 2, 127, 128, 253, 254]
        .iter()
        .all(|child| children.contains(child)));
}

/// Each of the four buffers is too long somewhere, and too short, with the other
/// three right.
#[test]
fn every_buffer_has_a_wrong_length() {
    let mut wrong = BTreeSet::new();
    for case in stretches() {
        let Some(Checkpoint { output, pause }) = old(&case) else {
            continue;
        };
        let due = case.call.output_bytes();
        let lengths = [
            (output.len(), due),
            (pause.len(), PAUSE),
            (case.output, due),
            (pause_length(&case), PAUSE),
        ];
        let others: Vec<usize> = (0..4)
            .filter(|at| lengths[*at].0 != lengths[*at].1)
            .collect();
        if let [only] = others[..] {
            assert!(case.expected.answer.number <= 12, "{}", case.name);
            wrong.insert((only, lengths[only].0 > lengths[only].1));
        }
    }
    assert_eq!(wrong.len(), 8, "{wrong:?}");
}

/// A sheet that a case pauses with is carried on from in some case, and never refused
/// by 19 with the output beside it.
#[test]
fn what_is_written_is_carried_on_from() {
    let cases = stretches();
    let mut taken_up = 0;
    for case in &cases {
        let Some(sheet) = &case.expected.pause else {
            continue;
        };
        let carried = cases.iter().filter(|next| {
            let same_sheets =
                next.call.store == case.call.store && next.call.programme == case.call.programme;
            let same_place = old(next).is_some_and(|old| {
                old.pause == *sheet && Some(&old.output) == case.expected.end.as_ref()
            });
            same_sheets && same_place
        });
        for next in carried {
            assert_ne!(next.expected.answer.number, 19, "{}", next.name);
            taken_up += 1;
        }
    }
    assert!(taken_up > 500, "{taken_up}");
}

/// A budget below the steps so far, equal to them, and above, under each rule.
#[test]
fn budgets_stand_around_the_steps_so_far() {
    let mut seen = BTreeSet::new();
    for case in stretches() {
        let Some(Checkpoint { pause, .. }) = old(&case) else {
            continue;
        };
        if let (0 | 17, Some(steps)) = (case.expected.answer.number, pause.first_chunk()) {
            let beside = case.call.budget.cmp(&u32::from_le_bytes(*steps));
            seen.insert((case.call.rule, beside));
        }
    }
    for rule in RULES {
        let beside = seen.iter().filter(|(own, _)| *own == rule).count();
        assert!(beside >= 2, "rule {rule}: {seen:?}");
    }
}
