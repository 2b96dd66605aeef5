//! Counts of pairs in which something is missing.

use super::*;

/// The rules that don't isolate.
const LEAKING: usize = 3;

/// Counts with which nothing is wrong.
fn all() -> Counts {
    Counts {
        finished: 2,
        told_apart: 1,
        by_high_bytes: 1,
        by_counts: 1,
        changed: 1,
        listed: 1,
        leaked: Traces {
            by_value: 1,
            by_count: 1,
            by_entries: 1,
        },
        leaked_with_operation: 1,
        operands: Operands {
            left: 1,
            right: 1,
            both: 1,
        },
        floors: Floors {
            endorsed: 1,
            above: 1,
            beside: 1,
        },
    }
}

/// Stretches with which nothing is wrong; those that show nothing are told in
/// `stretched`.
fn all_stretched() -> Stretched {
    let mut stretched = Stretched::default();
    for counts in &mut stretched.chains {
        counts.paused = 1;
        counts.in_branches = 1;
        counts.told_apart = 1;
        counts.changed = 1;
        counts.leaked.by_value = 1;
    }
    stretched
}

fn all_played() -> Played {
    Played {
        pairs: 1,
        rules: [all(); Rules::ALL.len()],
        without: [all(); Without::ALL.len()],
        shown: 1,
        shown_by_high_bytes: 1,
        stretched: all_stretched(),
    }
}

#[test]
fn what_is_never_seen_is_told() {
    let mut played = all_played();
    assert!(played.complaints().is_empty());
    played.shown = 0;
    played.without = Default::default();
    assert_eq!(played.complaints().len(), 1 + Without::ALL.len());
    played.shown_by_high_bytes = 0;
    played
        .rules
        .iter_mut()
        .for_each(|counts| counts.by_high_bytes = 0);
    let more = 1 + Rules::ALL.len();
    assert_eq!(played.complaints().len(), 1 + Without::ALL.len() + more);
    played.rules[3].operands.right = 0;
    played.rules[2].leaked_with_operation = 0;
    let more = more + 2;
    assert_eq!(played.complaints().len(), 1 + Without::ALL.len() + more);
}

/// Each condition that is left out has to let something through by itself.
#[test]
fn a_condition_that_is_not_needed_is_told() {
    for (place, without) in Without::ALL.into_iter().enumerate() {
        let mut played = all_played();
        played.without[place].leaked.by_value = 0;
        let words = format!(
            "{}: no pair ends differently where protected",
            without.words()
        );
        assert_eq!(played.complaints(), [words]);
    }
}

/// The complaints where all counts are changed so.
fn changed(change: fn(&mut Counts)) -> Vec<String> {
    let mut played = all_played();
    played.rules.iter_mut().for_each(change);
    played.complaints()
}

#[test]
fn counts_and_entries_that_do_not_tell_are_told() {
    let everywhere = [
        changed(|counts| counts.by_counts = 0),
        changed(|counts| counts.listed = 0),
    ];
    let where_rules_leak = [
        changed(|counts| counts.leaked.by_count = 0),
        changed(|counts| counts.leaked.by_entries = 0),
    ];
    assert!(everywhere.iter().all(|told| told.len() == Rules::ALL.len()));
    assert!(where_rules_leak.iter().all(|told| told.len() == LEAKING));
    let mut all = everywhere.iter().chain(&where_rules_leak).flatten();
    assert!(all.all(|words| words.contains("counts or entries tell")));
}

#[test]
fn floors_that_do_not_count_are_told() {
    let changes: [fn(&mut Floors); 4] = [
        |floors| floors.endorsed = 0,
        |floors| floors.endorsed = 2,
        |floors| floors.above = 0,
        |floors| floors.beside = 0,
    ];
    for change in changes {
        let mut played = all_played();
        let all = played.rules.iter_mut();
        all.for_each(|counts| change(&mut counts.floors));
        let complaints = played.complaints();
        assert_eq!(complaints.len(), Rules::isolating().count());
        assert!(complaints.iter().all(|words| words.contains("floors")));
    }
}
