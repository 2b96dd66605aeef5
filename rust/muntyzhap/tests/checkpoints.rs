//! Which checkpoints are carried on from: "19 when the path doesn't lead to an
//! assignment, if or while, a label isn't at or below the one outside it (equal in
//! a sequence), an unused byte isn't 0, a value is ill-formed, or counts add up to
//! more than the steps, judged after 12" (document 02, N8).

mod parts;

use muntyzhap::raw::Answer;
use muntyzhap::{carry_on, Checkpoint, Outcome, Refusal, Rule, Value, MOST_BUDGET};
use parts::branching::*;
use parts::stretch::*;
use parts::*;

fn store() -> Vec<u8> {
    store_of(&MASKS, &slots())
}

/// From before the assignment to slot 1, with another path.
fn with_path(block: usize, path: &[Taken]) -> Stretch {
    Stretch {
        pause: pause_sheet(4, block, path),
        ..paused(4)
    }
}

/// With another byte in the pause sheet.
fn with_byte(steps: u32, place: usize, byte: u8) -> Stretch {
    let mut changed = paused(steps);
    assert_ne!(changed.pause[place], byte);
    changed.pause[place] = byte;
    changed
}

/// With another value in the first slot.
fn with_value(kind: u8, payload: u64) -> Stretch {
    let mut changed = paused(4);
    changed.out[0] = kind;
    changed.out[1..9].copy_from_slice(&payload.to_le_bytes());
    changed
}

/// With these counts, before the step after so many.
fn with_counts(steps: u32, low: u32, high: u32) -> Stretch {
    let [(low_value, _), (high_value, _)] = HELD[steps as usize];
    Stretch {
        out: output([(low_value, low), (high_value, high)]),
        ..paused(steps)
    }
}

/// What carrying on to the end comes to.
fn carried_on(from: &Stretch) -> Stretch {
    from.next(given(&store(), &branching(), MOST_BUDGET))
}

/// Three zeros follow the number, and what was lent is as it was.
#[track_caller]
fn assert_refused(from: &Stretch) {
    let next = carried_on(from);
    assert_eq!(next.answer, Answer::only(19), "{:?}", from.pause);
    assert!(next.is_untouched(), "{next:?}");
}

#[track_caller]
fn assert_good(from: &Stretch) {
    assert_eq!(carried_on(from).answer.number, 0, "{from:?}");
}

#[test]
fn a_path_leads_to_an_assignment_an_if_or_a_while() {
    for (block, path) in [
        (0, [(0, HIGH)].as_slice()),
        (0, &[(1, HIGH)]),
        (0, &[(1, HIGH), (THEN, HIGH)]),
        (1, &[]),
        (1, &[(ELSE, LOW), (0, LOW)]),
        (1, &[(ELSE, LOW), (1, LOW)]),
        (1, &[(ELSE, LOW), (1, LOW), (BODY, LOW)]),
    ] {
        assert_good(&with_path(block, path));
    }
    for (block, path) in [
        // A sequence, as a block's own command and inside one; skips.
        (0, [].as_slice()),
        (1, &[(ELSE, LOW)]),
        (0, &[(1, HIGH), (ELSE, HIGH)]),
        (1, &[(THEN, LOW)]),
        // Children past the last, and of an assignment.
        (0, &[(2, HIGH)]),
        (1, &[(2, LOW)]),
        (1, &[(255, LOW)]),
        (1, &[(ELSE, LOW), (1, LOW), (1, LOW)]),
        (0, &[(0, HIGH), (0, HIGH)]),
        // Blocks past the last.
        (2, &[]),
        (255, &[(0, HIGH)]),
    ] {
        assert_refused(&with_path(block, path));
    }
}

#[test]
fn a_path_is_no_longer_than_the_sheet() {
    for length in [3, 31, 32, 125, 126, 255] {
        assert_refused(&with_byte(4, 4, length));
    }
}

#[test]
fn a_label_stands_at_or_below_the_one_outside() {
    assert_good(&with_path(0, &[(1, HIGH), (THEN, LOW)]));
    assert_good(&with_path(1, &[(ELSE, HIGH), (1, HIGH), (BODY, LOW)]));
    for (block, path) in [
        (1, [(ELSE, LOW), (1, LOW), (BODY, HIGH)].as_slice()),
        // In a sequence it is the same: a block's own has the top.
        (0, &[(0, LOW)]),
        (1, &[(ELSE, HIGH), (0, LOW)]),
        (1, &[(ELSE, LOW), (0, HIGH)]),
        // No principals.
        (1, &[(ELSE, 2), (0, 2)]),
        (0, &[(1, HIGH), (THEN, 255)]),
    ] {
        assert_refused(&with_path(block, path));
    }
}

#[test]
fn unused_bytes_are_zero() {
    let used = 4 + 2 + 2 * 2;
    for place in used..PAUSE {
        for byte in [1, 0x80] {
            assert_refused(&with_byte(4, place, byte));
        }
    }
}

#[test]
fn values_are_well_formed() {
    let good = [
        (Value::INTEGER, u64::MAX),
        (Value::READ_VIEW, 1),
        (Value::WRITE_VIEW, 1),
    ];
    for (kind, payload) in good {
        // Another answer may come of it, later.
        let number = carried_on(&with_value(kind, payload)).answer.number;
        assert_ne!(number, 19, "{kind}, {payload}");
    }
    let bad = [
        (Value::TRUTH, 2),
        (Value::TRUTH, 1 << 63),
        (Value::READ_VIEW, 2),
        (Value::WRITE_VIEW, 2),
        (Value::WRITE_VIEW, 1 << 56),
        (4, 0),
        (255, 0),
    ];
    for (kind, payload) in bad {
        assert_refused(&with_value(kind, payload));
    }
}

#[test]
fn counts_add_up_to_no_more_than_the_steps() {
    for (low, high) in [(0, 0), (4, 0), (0, 4), (3, 1)] {
        assert_good(&with_counts(4, low, high));
    }
    // Without wrapping.
    let most = u32::MAX;
    for (low, high) in [(5, 0), (0, 5), (4, 1), (most, 1), (most, most), (1, most)] {
        assert_refused(&with_counts(4, low, high));
    }
}

/// "12 also covers all these", "judged after 12"
#[test]
fn every_length_is_judged_before_what_a_checkpoint_holds() {
    let (store, programme) = (store(), branching());
    let given = given(&store, &programme, ALL);
    let right = [OUTPUT, PAUSE, OUTPUT, PAUSE];
    let bad = with_byte(4, 255, 1);
    for (buffer, right_length) in right.into_iter().enumerate() {
        for wrong in [0, right_length - 1, right_length + 1, 2 * right_length] {
            let mut lengths = right;
            lengths[buffer] = wrong;
            let [old_out, old_pause, out, pause] = lengths;
            let mut from = bad.clone();
            from.out.resize(old_out, 0);
            from.pause.resize(old_pause, 0);
            let next = Stretch::lent(out, pause).carry_on(given, &from);
            assert_eq!(next.answer, Answer::only(12), "{lengths:?}");
            assert!(next.is_untouched());
            let first = Stretch::lent(out, pause).start(given);
            let of_start = buffer >= 2;
            assert_eq!(first.answer.number, if of_start { 12 } else { 0 });
            assert_eq!(first.is_untouched(), of_start, "{lengths:?}");
        }
    }
}

/// "Order: 11; 1 to 5; 6 to 10; 12 over all four buffers, old and new; 19; then 17"
#[test]
fn arguments_and_sheets_are_judged_before_lengths() {
    let (store, programme) = (store(), branching());
    let good = given(&store, &programme, ALL);
    let (no_store, no_programme) = ([2, 2].as_slice(), [0, 0].as_slice());
    let cases = [
        (Given { rule: 4, ..good }, 11),
        (
            Given {
                budget: MOST_BUDGET + 1,
                store: no_store,
                ..good
            },
            11,
        ),
        (
            Given {
                store: no_store,
                programme: no_programme,
                ..good
            },
            1,
        ),
        (
            Given {
                programme: no_programme,
                ..good
            },
            6,
        ),
        (good, 12),
    ];
    for (given, number) in cases {
        let from = Stretch::lent(0, 0);
        let next = Stretch::lent(1, 1).carry_on(given, &from);
        assert_eq!(next.answer, Answer::only(number), "{given:?}");
        assert!(next.is_untouched());
        let first = Stretch::lent(1, 1).start(given);
        assert_eq!(first.answer, Answer::only(number), "{given:?}");
        assert!(first.is_untouched());
    }
    // What is not good is judged before a budget that is spent.
    let bad = with_byte(4, 255, 1);
    assert_eq!(bad.next(Given { budget: 0, ..good }).answer.number, 19);
}

/// A label that was altered can pass: 19 does not make a checkpoint one that was
/// written.
#[test]
fn a_forged_label_is_not_seen() {
    let (store, programme) = (store(), branching());
    let full = Given {
        rule: Rule::FullProvenance.number(),
        ..given(&store, &programme, ALL)
    };
    let forged = with_path(1, &[(ELSE, HIGH), (0, HIGH)]);
    assert_eq!(paused(4).next(full).answer.number, 16);
    assert_eq!(forged.next(full), finished());
    // With no steps left it is written again, by a call.
    let written = forged.next(Given { budget: 0, ..full });
    assert_eq!((&written.out, &written.pause), (&forged.out, &forged.pause));
}

#[test]
fn the_wrapped_call_refuses_what_is_not_good() {
    let (store, programme) = (store(), branching());
    let ended = |bytes: &[u8]| {
        let from = Checkpoint::from_bytes(bytes).expect("some store's length");
        carry_on(&store, &programme, Rule::AccessControl, ALL, &from)
    };
    let good = checkpoint(4).to_bytes();
    assert!(matches!(ended(&good), Ok(Outcome::Finished { .. })));
    let mut bad = good.clone();
    bad[PAUSE - 1] = 1;
    assert_eq!(ended(&bad), Err(Refusal::Checkpoint));
    // Of a store with one slot, or with three.
    let (fewer, more) = (&good[..PAUSE + 13], [good.as_slice(), &[0; 13]].concat());
    assert_eq!(ended(fewer), Err(Refusal::OutputLength));
    assert_eq!(ended(&more), Err(Refusal::OutputLength));
    let fewer = Checkpoint::from_bytes(fewer).expect("one slot");
    assert_eq!(fewer.slots(&store), None);
}
