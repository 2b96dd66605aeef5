//! Runs in stretches (document 02, N8), at random: "Pausing and carrying on under
//! one rule, with a budget not below the steps so far, gives the same answer, output
//! and steps as a run by this entry point that never paused."

mod play;
mod random;
mod stretch;

use play::*;
use random::flows::flowing_parts;
use random::views::views_go_round;
use random::*;
use sheets::*;
use stretch::*;

/// How many programmes of each kind are played.
const PROGRAMMES: u64 = 2_000;
/// As many steps as a run here is cut at; some have no end.
const MOST_CUTS: u32 = 24;

/// Calls of every kind of programme, under every rule, with that budget.
fn calls() -> impl Iterator<Item = Call> {
    let kinds = [good_parts, flowing_parts, views_go_round];
    let all = (0..PROGRAMMES).flat_map(move |seed| kinds.map(|parts| parts(seed)));
    all.zip(RULES.into_iter().cycle()).map(|(parts, rule)| {
        let call = parts.call();
        call.rule(rule).budget(MOST_CUTS)
    })
}

/// Up to every cut, then to the end.
#[test]
fn from_every_cut_a_run_ends_as_if_it_had_not_paused() {
    let mut counts = [0; NUMBERS];
    for call in calls() {
        let whole = first(&call);
        for cut in 0..=whole.answer.steps {
            let paused = first(&call.budget(cut));
            if !paused.is_spent() {
                // Nothing is left to be done with.
                assert_eq!((cut, &paused), (whole.answer.steps, &whole));
                continue;
            }
            assert_eq!(paused.answer.steps, cut);
            assert_eq!(next(&call, paused.checkpoint()), whole);
            counts[whole.answer.number as usize] += 1;
        }
    }
    let came = [0, 13, 14, 15, 16, 17].map(|number| counts[number]);
    assert!(came.iter().all(|count| *count > 200), "{counts:?}");
}

/// One step a stretch: each leaves what a start with that budget does.
#[test]
fn stretches_of_one_step_add_up() {
    let mut lengths = [0; 4];
    for call in calls() {
        let whole = first(&call);
        let mut stretch = first(&call.budget(0));
        while stretch.is_spent() && stretch.answer.steps < MOST_CUTS {
            lengths[stretch.path_length()] += 1;
            let further = call.budget(stretch.answer.steps + 1);
            stretch = next(&further, stretch.checkpoint());
            assert_eq!(stretch, first(&further));
        }
        assert_eq!(stretch, whole);
    }
    assert!(lengths.iter().all(|count| *count > 100), "{lengths:?}");
}

/// A journal as long as the budget is never full, so it makes no difference; but
/// for a spent run, which writes here.
#[test]
fn a_stretch_is_a_run_with_a_long_journal() {
    let mut counts = [0; NUMBERS];
    for call in calls() {
        let (stretch, run) = (first(&call), call.journal(MOST_CUTS as usize).play());
        assert_eq!(stretch.answer, run.answer);
        match run.answer.number {
            0 => assert_eq!(stretch.output, run.output),
            17 => run.assert_untouched(),
            _ => stretch.assert_untouched(),
        }
        if run.answer.number == 0 {
            stretch.assert_pause_untouched();
        }
        counts[run.answer.number as usize] += 1;
    }
    let came = [0, 13, 14, 15, 16, 17].map(|number| counts[number]);
    assert!(came.iter().all(|count| *count > 50), "{counts:?}");
}

/// "one at or below them gives 17 before any step": both buffers are copied, and
/// the steps are those so far, under any rule.
#[test]
fn a_budget_at_or_below_the_steps_so_far_copies() {
    let mut copied = 0;
    for call in calls() {
        for cut in (0..MOST_CUTS).step_by(5) {
            let paused = first(&call.budget(cut));
            if !paused.is_spent() {
                continue;
            }
            for budget in [0, cut / 2, cut] {
                for rule in RULES {
                    let again = call.budget(budget).rule(rule);
                    assert_eq!(next(&again, paused.checkpoint()), paused);
                }
                copied += 1;
            }
        }
    }
    assert!(copied > 1_000, "{copied}");
}

/// "Branch labels are kept under every rule": wherever two rules let the same steps
/// pass, they leave the same bytes.
#[test]
fn labels_are_kept_under_every_rule() {
    let mut same = 0;
    for call in calls() {
        for cut in 0..MOST_CUTS {
            let paused = RULES.map(|rule| first(&call.rule(rule).budget(cut)));
            let spent: Vec<&Stretch> = paused.iter().filter(|one| one.is_spent()).collect();
            assert!(spent.windows(2).all(|two| two[0] == two[1]));
            same += u32::from(spent.len() == RULES.len() && spent[0].path_length() > 1);
        }
    }
    assert!(same > 1_000, "{same}");
}

/// "After a change of rule, the next step is the first judged by the new one": a
/// run that one rule refuses passes that step under another, and then goes on under
/// the first. No rule lets pass what another refuses by 14.
#[test]
fn a_step_is_judged_by_the_rule_of_its_stretch() {
    let mut counts = [0; NUMBERS];
    for call in calls() {
        let refused = first(&call);
        if !matches!(refused.answer.number, 15 | 16) {
            continue;
        }
        let before = first(&call.budget(refused.answer.steps));
        for rule in RULES {
            let milder = call.rule(rule);
            let passed = next(
                &milder.budget(refused.answer.steps + 1),
                before.checkpoint(),
            );
            if !passed.is_spent() {
                continue;
            }
            // The step that was refused is done, and is not judged again.
            let after = next(&call, passed.checkpoint());
            assert!(after.answer.steps > refused.answer.steps);
            assert_eq!(next(&call, before.checkpoint()), refused);
            counts[refused.answer.number as usize] += 1;
        }
    }
    assert!(
        counts[15..=16].iter().all(|count| *count > 50),
        "{counts:?}"
    );
}

/// A sheet or an output with some bytes altered is refused by 19 or carried on
/// with, and where no steps are left it is copied as it is.
#[test]
fn altered_checkpoints_are_answered() {
    let mut counts = [0; NUMBERS + 1];
    for (seed, call) in calls().enumerate() {
        let mut random = Random::stream((7 << 32) + seed as u64);
        let paused = first(&call.budget(random.below(8) as u32));
        if !paused.is_spent() {
            continue;
        }
        let mut altered = paused.clone();
        for _ in 0..1 + random.below(2) {
            let path = PAUSE_HEAD + 2 * paused.path_length();
            match random.below(3) {
                0 if !altered.output.is_empty() => {
                    let at = random.below(altered.output.len());
                    altered.output[at] = random.below(5) as u8;
                }
                1 => altered.pause[random.below(PAUSE)] ^= 1 << random.below(8),
                _ => altered.pause[random.below(path)] = random.below(6) as u8,
            }
        }
        let ended = next(&call, altered.checkpoint());
        counts[ended.answer.number as usize] += 1;
        let copied = next(&call.budget(0), altered.checkpoint());
        match copied.answer.number {
            17 => assert_eq!(copied.checkpoint(), altered.checkpoint()),
            _ => {
                ended.assert_number(19);
                copied.assert_number(19);
                copied.assert_untouched();
            }
        }
    }
    assert!(
        counts[19] > 500 && counts[0] > 50 && counts[16] > 5,
        "{counts:?}"
    );
}
