//! Runs that are paused and carried on, by what document 02 says of them (N8).

mod parts;

use muntyzhap::code::*;
use muntyzhap::sheet::{output_bytes, Slot};
use muntyzhap::{carry_on, run, start, Checkpoint, Outcome, Place, Refusal, Rule, Value};
use muntyzhap::{Integer, MOST_BUDGET};
use parts::branching::*;
use parts::stretch::*;
use parts::*;

fn store() -> Vec<u8> {
    store_of(&MASKS, &slots())
}

#[track_caller]
fn checkpoint_of(outcome: Result<Outcome, Refusal>) -> Checkpoint {
    match outcome {
        Ok(Outcome::Paused { checkpoint, .. }) => checkpoint,
        other => panic!("not paused: {other:?}"),
    }
}

/// Each slot's owner, value and count of writes.
fn told(slots: &[Slot]) -> Vec<(u8, Value, u32)> {
    let told = |slot: &Slot| (slot.owner(), slot.value(), slot.writes());
    slots.iter().map(told).collect()
}

fn held(step: usize) -> [(u8, Value, u32); 2] {
    let [low, high] = HELD[step].map(|(integer, writes)| (Value::Integer(integer), writes));
    [(LOW, low.0, low.1), (HIGH, high.0, high.1)]
}

/// "answers 17 [..] by writing output, counts included, and a pause sheet", at
/// every step; a run that finishes leaves the pause buffer as it was.
#[test]
fn a_spent_budget_leaves_output_and_pause_sheet() {
    for budget in (0..ALL + 2).chain([MOST_BUDGET]) {
        let first = Stretch::first(given(&store(), &branching(), budget));
        assert_eq!(first, left(budget), "{budget}");
    }
}

/// "Pausing and carrying on under one rule [..] gives the same answer, output and
/// steps as a run by this entry point that never paused": from every step.
#[test]
fn a_run_that_is_carried_on_is_as_one_that_never_paused() {
    for steps in 0..ALL {
        for budget in steps..ALL + 2 {
            let next = paused(steps).next(given(&store(), &branching(), budget));
            assert_eq!(next, left(budget), "{steps}, {budget}");
        }
    }
}

/// "a budget that includes the steps so far; one at or below them gives 17 before
/// any step"
#[test]
fn a_budget_that_is_spent_already_gives_the_checkpoint_again() {
    for steps in 0..ALL {
        for budget in 0..=steps {
            let next = paused(steps).next(given(&store(), &branching(), budget));
            assert_eq!(next, paused(steps), "{steps}, {budget}");
        }
    }
}

/// More steps than any budget has are no refusal of their own.
#[test]
fn steps_above_every_budget_are_spent() {
    let (store, programme, rule) = (store(), branching(), Rule::AccessControl);
    let mut far = paused(4);
    for steps in [MOST_BUDGET, MOST_BUDGET + 1, u32::MAX] {
        far.answer.steps = steps;
        far.pause[..4].copy_from_slice(&steps.to_le_bytes());
        let next = far.next(given(&store, &programme, MOST_BUDGET));
        assert_eq!(next, far, "{steps}");
        let bytes = [far.pause.as_slice(), &far.out].concat();
        let from = Checkpoint::from_bytes(&bytes).expect("a checkpoint's bytes");
        let next = carry_on(&store, &programme, rule, MOST_BUDGET, &from);
        assert_eq!(checkpoint_of(next), from, "{steps}");
    }
}

#[test]
fn the_wrapped_calls_give_a_checkpoint_and_then_the_end_store() {
    let (store, programme, rule) = (store(), branching(), Rule::AccessControl);
    let mut outcome = start(&store, &programme, rule, 0);
    for steps in 0..ALL {
        let (block, offset, _) = STOPS[steps as usize];
        let expected = Outcome::Paused {
            place: Place { block, offset },
            checkpoint: checkpoint(steps),
        };
        assert_eq!(outcome, Ok(expected));
        let from = checkpoint_of(outcome);
        assert_eq!((from.steps(), from.block()), (steps, block));
        let slots = from.slots(&store).expect("slots so far");
        assert_eq!(told(&slots), held(steps as usize));
        outcome = carry_on(&store, &programme, rule, steps + 1, &from);
        assert_eq!(outcome, start(&store, &programme, rule, steps + 1));
    }
    let Ok(Outcome::Finished {
        blocks,
        steps,
        slots,
    }) = outcome
    else {
        panic!("not finished: {outcome:?}");
    };
    assert_eq!((blocks, steps), (2, ALL));
    assert_eq!(told(&slots), held(ALL as usize));
}

/// But for what 17 writes, a stretch is a run with a journal that is long enough.
#[test]
fn a_stretch_ends_as_a_run_does() {
    let forbidden = programme_by(HIGH, assign(1, read(0)));
    let endless = programme_by(LOW, built(while_command(truth(true), skip())));
    for programme in [branching(), forbidden, endless, programme_of(&[])] {
        for (rule, budget) in Rule::ALL.into_iter().flat_map(|rule| {
            let budgets = (0..ALL + 2).chain([MOST_BUDGET + 1]);
            budgets.map(move |budget| (rule, budget))
        }) {
            let stretch = start(&store(), &programme, rule, budget);
            match run(&store(), &programme, rule, budget) {
                Ok(run) => {
                    let (blocks, steps, slots) = (run.blocks, run.steps, run.slots);
                    let finished = Outcome::Finished {
                        blocks,
                        steps,
                        slots,
                    };
                    assert_eq!(stretch, Ok(finished), "{rule}, {budget}");
                }
                Err(Refusal::BudgetSpent(stop)) => {
                    let Ok(Outcome::Paused { place, checkpoint }) = stretch else {
                        panic!("not paused: {stretch:?}");
                    };
                    assert_eq!((place, checkpoint.steps()), (stop.place, stop.steps));
                }
                Err(refusal) => assert_eq!(stretch, Err(refusal), "{rule}, {budget}"),
            }
        }
    }
}

/// A step that the rules forbid is refused as in a run, with all the steps done,
/// and leaves output and pause buffer as they were.
#[test]
fn a_forbidden_step_leaves_what_was_lent() {
    let (store, programme) = (store(), branching());
    let given = |budget| Given {
        rule: Rule::FullProvenance.number(),
        ..given(&store, &programme, budget)
    };
    // slot 1 := 8, where the branch's label is the low principal.
    for (steps, from) in (0..=4).map(|steps| (steps, Stretch::first(given(steps)))) {
        assert_eq!(from, paused(steps), "the labels are those of rule 0");
        for next in [from.next(given(ALL)), Stretch::first(given(ALL))] {
            let answer = next.answer;
            let place = (answer.block, answer.offset, answer.steps);
            assert_eq!((answer.number, place), (16, (1, 26, 4)), "{steps}");
            assert!(next.is_untouched(), "{next:?}");
        }
    }
}

/// "After a change of rule, the next step is the first judged by the new one", and
/// "Branch labels are kept under every rule."
#[test]
fn a_new_rule_judges_from_the_next_step_on() {
    let (store, programme) = (store(), branching());
    let ended = |before, steps, after| {
        let from = checkpoint_of(start(&store, &programme, before, steps));
        match carry_on(&store, &programme, after, ALL, &from) {
            Ok(Outcome::Finished { slots, .. }) => Ok(slots[1].value()),
            Ok(paused) => panic!("{paused:?}"),
            Err(refusal) => Err(refusal),
        }
    };
    let (finished, refused) = (
        Ok(Value::Integer(8)),
        Err(Refusal::ProvenanceTooLow(stop(1, 26, 4))),
    );
    for milder in [
        Rule::AccessControl,
        Rule::Capability,
        Rule::ExplicitProvenance,
    ] {
        for strict in [Rule::FullProvenance, Rule::Default] {
            for steps in 0..=4 {
                assert_eq!(ended(milder, steps, strict), refused, "{milder}, {steps}");
                assert_eq!(ended(strict, steps, milder), finished, "{milder}, {steps}");
            }
            // The step that it would have refused is done.
            for steps in 5..ALL {
                assert_eq!(ended(milder, steps, strict), finished, "{milder}, {steps}");
            }
        }
    }
}

/// An if whose guard comes from the low principal, and in it one whose guard is a
/// literal: the label inside that one is still the low principal.
#[test]
fn a_label_inside_is_the_meet_with_the_one_outside() {
    let inner = if_command(truth(true), assign(0, integer(1)), skip());
    let guard = built(equal(read(0), integer(5)));
    let outer = if_command(guard, built(inner), skip());
    let programme = programme_by(HIGH, built(outer));
    let path = [(THEN, LOW), (THEN, LOW)];
    for cut in 0..=2 {
        let first = Stretch::first(given(&store(), &programme, cut));
        let next = first.next(given(&store(), &programme, 2));
        assert_eq!(next.pause, pause_sheet(2, 0, &path), "{cut}");
    }
}

/// "after each round before judging again, the outer one is back", in a run that is
/// carried on inside the body too: the guard of the second round reads another
/// slot, of the high principal's.
#[test]
fn a_body_s_label_is_not_left_behind() {
    let slots = [
        slot(HIGH, Value::ReadView(1)),
        slot(LOW, Value::Truth(true)),
        slot(HIGH, Value::Truth(true)),
    ];
    let store = store_of(&MASKS, &slots);
    let body = assign(0, literal(Value::ReadView(2)));
    let round = while_command(built(read_through(read(0))), body);
    let programme = programme_by(HIGH, built(round));
    let paths: [&[Taken]; 4] = [&[], &[(BODY, LOW)], &[], &[(BODY, HIGH)]];
    let lent = || Stretch::lent(output_bytes(&store), PAUSE);
    for (steps, path) in (0..).zip(paths) {
        let sheet = pause_sheet(steps, 0, path);
        for cut in 0..=steps {
            let first = lent().start(given(&store, &programme, cut));
            let next = lent().carry_on(given(&store, &programme, steps), &first);
            assert_eq!(next.pause, sheet, "{cut}, {steps}");
        }
    }
}

/// "Carrying on takes the same store and programme, the old output [..] as opening
/// values": the sheet's own are judged and then not used.
#[test]
fn the_store_sheet_s_values_are_judged_and_not_used() {
    let other = store_of(&MASKS, &slots_of([-1, -2]));
    let next = paused(4).next(given(&other, &branching(), ALL));
    assert_eq!(next, finished());
    let mut bad = store();
    *bad.last_mut().expect("a value") = 1;
    assert_eq!(paused(4).next(given(&bad, &branching(), ALL)), finished());
    let kind = bad.len() - Value::BYTES;
    bad[kind] = 4;
    let next = paused(4).next(given(&bad, &branching(), ALL));
    assert_eq!(next.answer.number, 5);
    assert!(next.is_untouched());
}

/// "Commands nest inside commands up to 32 deep": a path has up to 31 entries.
#[test]
fn the_deepest_command_can_be_paused_at() {
    let deep = (1..MOST_DEPTH).fold(assign(0, integer(1)), |inner, _| {
        built(if_command(truth(true), inner, skip()))
    });
    let programme = programme_by(LOW, deep);
    let deepest = MOST_DEPTH as u32 - 1;
    let mut from = Stretch::first(given(&store(), &programme, 0));
    for steps in 0..=deepest {
        let path = vec![(THEN, HIGH); steps as usize];
        assert_eq!(from.pause, pause_sheet(steps, 0, &path));
        from = from.next(given(&store(), &programme, steps + 1));
    }
    assert_eq!(from.answer.number, 0);
    assert_eq!(from.out, output([(1, 1), (7, 0)]));
}

/// A loop of 70,000 rounds, in slices of some steps, each from the saved bytes of
/// the one before.
#[test]
fn long_work_in_slices_ends_as_in_one_run() {
    const ROUNDS: Integer = 70_000;
    let more = assign(0, built(sum(read(0), integer(1))));
    let guard = built(less_than(read(0), integer(ROUNDS)));
    let programme = programme_by(LOW, built(while_command(guard, more)));
    let (store, rule) = (store(), Rule::FullProvenance);
    let whole = run(&store, &programme, rule, MOST_BUDGET).expect("rounds enough");
    for slice in [9_999, 50_000, MOST_BUDGET] {
        let mut outcome = start(&store, &programme, rule, slice);
        let mut slices = 1;
        while let Ok(Outcome::Paused { checkpoint, .. }) = outcome {
            assert_eq!(checkpoint.steps(), slices * slice);
            slices += 1;
            let kept = Checkpoint::from_bytes(&checkpoint.to_bytes()).expect("as it was");
            outcome = carry_on(&store, &programme, rule, slices * slice, &kept);
        }
        let finished = Outcome::Finished {
            blocks: whole.blocks,
            steps: whole.steps,
            slots: whole.slots.clone(),
        };
        assert_eq!(outcome, Ok(finished), "{slice}");
        assert_eq!(slices, whole.steps.div_ceil(slice));
    }
}
