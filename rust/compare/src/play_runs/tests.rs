//! What comes up in runs, and what steps and entries they need.

use super::*;
use crate::answers::Answer;
use crate::DEFAULT_SEED;

#[test]
fn every_answer_and_budget_comes_up() {
    let played = play(DEFAULT_SEED, 10_000).expect("no difference");
    let complaints = played.complaints();
    assert!(complaints.is_empty(), "{complaints:?}");
}

#[test]
fn a_wide_rule_number_that_never_comes_up_is_told() {
    let complaints = Played::new().complaints();
    for wide in WIDE {
        let words = format!("rule numbers past a byte: {wide} never came up");
        assert!(complaints.contains(&words), "{complaints:?}");
    }
}

/// What both runners do.
fn seen(run: &Run) -> Seen {
    let call = Call::Run(run.clone());
    call.compare().expect("no difference")
}

fn answer(run: &Run) -> Answer {
    seen(run).answer
}

/// The first so many runs that finish or are refused in a step, with what
/// they come to.
fn runs_that_take_place(count: usize) -> Vec<(Run, Ample)> {
    let spare = &mut Spare::default();
    let cases = (0..).map(|case| {
        let random = &mut Random::of_case(15, case);
        let (store, programme) = random_sheets(random);
        let run = plain_run(&store, &programme, random.pick(&RULES).0);
        let ample = Ample::of(&run, spare);
        (run, ample)
    });
    let suitable = cases.filter(|(_, ample)| ample.took_place());
    suitable.take(count).collect()
}

/// A run that finishes needs as many steps as it does, and one that is
/// refused in a step needs that one more.
#[test]
fn the_steps_are_those_needed() {
    for (mut run, ample) in runs_that_take_place(2_000) {
        let ample = ample.answer;
        let needed = ample.steps + u32::from(ample.number != 0);
        run.budget = needed;
        assert_eq!(answer(&run), ample);
        run.budget = needed + 1;
        assert_eq!(answer(&run), ample);
        if needed > 0 {
            run.budget = needed - 1;
            let spent = answer(&run);
            assert_eq!((spent.number, spent.steps), (17, needed - 1));
        }
    }
}

/// A run that finishes needs as many entries as it fills. With fewer, 18 comes
/// at the place of the first one that is missing, as 17 does if the budget is
/// spent there too.
#[test]
fn the_entries_are_those_needed() {
    let finished = |(_, ample): &(Run, Ample)| ample.answer.number == 0;
    let runs = runs_that_take_place(1_500).into_iter().filter(finished);
    for (mut run, ample) in runs {
        let whole = seen(&run);
        let entries = &whole.journal.filled;
        assert_eq!(ample.writes, Some(entries.len()));
        run.journal_length = entries.len();
        assert_eq!(seen(&run).journal.filled, *entries);
        for (length, missing) in entries.iter().enumerate().rev().take(12) {
            run.journal_length = length;
            let full = answer(&run);
            let place = (full.number, full.block, full.offset);
            assert_eq!(place, (18, missing.block, missing.offset));
            let budget = full.steps;
            let spent = answer(&Run {
                budget,
                ..run.clone()
            });
            assert_eq!(spent, Answer { number: 17, ..full });
        }
    }
}

#[test]
fn every_other_rule_number_is_refused() {
    let (mut run, _) = runs_that_take_place(1).remove(0);
    for rule in (0..=0x1FF).chain(WIDE) {
        run.rule = rule;
        let known = RULES.iter().any(|(known, _, _)| *known == rule);
        assert_eq!(answer(&run).number == 11, !known, "rule {rule}");
    }
}
