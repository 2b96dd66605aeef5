//! What comes up in stretches.

use super::*;
use crate::checkpoints::is_good;
use crate::DEFAULT_SEED;

#[test]
fn every_answer_and_damage_comes_up() {
    let played = play(DEFAULT_SEED, 1_000).unwrap_or_else(|stopped| panic!("{stopped:?}"));
    let complaints = played.complaints();
    assert!(complaints.is_empty(), "{complaints:?}");
}

#[test]
fn what_never_comes_up_is_told() {
    let complaints = Played::new().complaints();
    let words = [
        "start: 17 never came up",
        "carry on: 19 never came up",
        "cuts, by the length of their path: 31 never came up",
        "cuts, by what is next: while never came up",
        "damage that is refused by 19: forged labels never came up",
        "damage that is carried on from: forged labels never came up",
        "budgets beside the steps so far: below never came up",
        "buffers that alone have a wrong length: old pause sheet never came up",
        "changes of rule after which steps are done: 0 to 3 never came up",
        "no cut in a later block",
        "no label that rises between rounds",
    ];
    for each in words {
        assert!(
            complaints.contains(&each.to_string()),
            "{each}: {complaints:?}"
        );
    }
}

/// Some starts that are spent, with what they pause with.
fn checkpoints(count: usize) -> Vec<(Stretch, Checkpoint)> {
    let cases = (0..).filter_map(|case| {
        let random = &mut Random::of_case(33, case);
        let (store, programme) = random_sheets(random);
        let (rule, _, _) = random.pick(&RULES);
        let mut first = first_of(&plain_run(&store, &programme, rule));
        first.budget = random.below(30) as u32;
        let checkpoint = first.second().checkpoint()?;
        Some((first, checkpoint))
    });
    cases.take(count).collect()
}

/// Where it changes anything at all: a path may have no label, and a store no slot.
#[test]
fn some_damage_is_never_good() {
    let mut seen = [0; Damage::NEVER_GOOD.len()];
    for (case, (first, checkpoint)) in checkpoints(500).into_iter().enumerate() {
        assert!(is_good(&first, &checkpoint));
        let random = &mut Random::of_case(34, case as u64);
        for (place, damage) in Damage::NEVER_GOOD.into_iter().enumerate() {
            let slots = first.output_length / Record::WIDTH;
            let bad = damage.done(random, &first, &checkpoint);
            if bad != checkpoint && (damage != Damage::Wrapping || slots > 1) {
                assert!(!is_good(&first, &bad), "{damage}");
                seen[place] += 1;
            }
        }
    }
    assert!(seen.iter().all(|count| *count > 100), "{seen:?}");
}

/// A sheet that is written says the same place again.
#[test]
fn a_place_is_read_as_it_was_written() {
    for (first, checkpoint) in checkpoints(200) {
        let place = Place::in_sheet(&checkpoint.pause).expect("a good sheet");
        let length = place.path.len();
        let (children, labels): (Vec<u8>, Vec<u8>) = place.path.iter().copied().unzip();
        let head = [length as u8, place.block as u8];
        let mut sheet = [&place.steps.to_le_bytes()[..], &head, &children, &labels].concat();
        sheet.resize(Place::WIDTH, 0);
        assert_eq!(sheet, checkpoint.pause);
        assert_eq!(place.steps, first.budget);
    }
}
