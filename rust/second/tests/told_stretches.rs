//! What runs in stretches tell: the steps of all of them are those of a run that
//! never paused, and so is the cause, but for guards that an earlier stretch judged.

mod play;
mod random;
mod stretch;

use play::*;
use random::flows::flowing_parts;
use random::views::views_go_round;
use random::*;
use second_runner::{carry_on_told, start_told, Guarding, Step, StepKind, Stopped, Told};
use sheets::*;
use stretch::{first, next, Stretch};

/// How many programmes of each kind are played.
const PROGRAMMES: u64 = 1_000;
/// As many steps as a run here is cut at; some have no end.
const MOST_CUTS: u32 = 24;

/// Calls of every kind of programme, under every rule, with that budget.
fn calls() -> impl Iterator<Item = Call> {
    let kinds = [good_parts, flowing_parts, views_go_round];
    let all = (0..PROGRAMMES).flat_map(move |seed| kinds.map(|parts| parts(seed)));
    all.zip(RULES.into_iter().cycle()).map(|(parts, rule)| {
        let call = parts.call();
        call.rule(rule).budget(MOST_CUTS)
    })
}

/// What a stretch tells, and what was lent to it then.
struct Heard {
    told: Told,
    steps: Vec<Step>,
    stretch: Stretch,
}

/// A stretch from there on, or from the start.
fn hear(call: &Call, from: Option<(&[u8], &[u8])>) -> Heard {
    // As it is lent to a plain call.
    let mut stretch = first(&call.rule(u32::MAX));
    let mut steps = Vec::new();
    let each = &mut |step: &Step| steps.push(step.clone());
    let (store, programme, rule, budget) = (&call.store, &call.programme, call.rule, call.budget);
    let (output, pause) = (&mut stretch.output, &mut stretch.pause);
    let told = match from {
        None => start_told(store, programme, rule, budget, output, pause, each),
        Some((old_output, old_pause)) => carry_on_told(
            store, programme, rule, budget, old_output, old_pause, output, pause, each,
        ),
    };
    stretch.answer = told.answer;
    Heard {
        told,
        steps,
        stretch,
    }
}

#[test]
fn stretches_tell_what_a_run_that_never_paused_does() {
    let mut counts = [0; NUMBERS];
    let mut earlier = [0; 2];
    for call in calls() {
        let whole = hear(&call, None);
        assert_eq!(whole.stretch, first(&call));
        for cut in 0..=whole.told.answer.steps {
            let paused = hear(&call.budget(cut), None);
            assert_eq!(paused.stretch, first(&call.budget(cut)));
            if !paused.stretch.is_spent() {
                continue;
            }
            let from = paused.stretch.checkpoint();
            let rest = hear(&call, Some(from));
            assert_eq!(rest.stretch, next(&call, from));
            assert_eq!([&paused.steps[..], &rest.steps].concat(), whole.steps);
            assert_eq!(rest.told.answer, whole.told.answer);
            assert_eq!(rest.told.stopped.is_some(), whole.told.stopped.is_some());
            if let (Some(stopped), Some(never)) = (&rest.told.stopped, &whole.told.stopped) {
                assert_same(stopped, never);
                for guarding in &stopped.guards {
                    let judged = was_judged(stopped, guarding, &rest.steps);
                    assert_eq!(guarding.guard.is_some(), judged, "{stopped:?}");
                    earlier[usize::from(judged)] += 1;
                }
            }
            counts[whole.told.answer.number as usize] += 1;
        }
    }
    let came = [0, 13, 14, 15, 16, 17].map(|number| counts[number]);
    assert!(came.iter().all(|count| *count > 100), "{counts:?}");
    assert!(earlier.iter().all(|count| *count > 500), "{earlier:?}");
}

/// A guard that is open was judged last in this stretch if ever in it.
fn was_judged(stopped: &Stopped, guarding: &Guarding, steps: &[Step]) -> bool {
    steps.iter().any(|step| {
        let place = (step.block, step.offset) == (stopped.block, guarding.offset);
        place && matches!(step.what, StepKind::Guard { .. })
    })
}

/// All but the guards that are not known any more.
fn assert_same(stopped: &Stopped, never: &Stopped) {
    let mut never = never.clone();
    for (guarding, of_whole) in stopped.guards.iter().zip(&mut never.guards) {
        if guarding.guard.is_none() {
            of_whole.guard = None;
        }
    }
    assert_eq!(*stopped, never);
}
