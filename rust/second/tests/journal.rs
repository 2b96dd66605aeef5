//! The writing journal (document 02, N7) where the list of cases can't say it:
//! journals longer than those it lends, and 18's place among the refusals, at
//! random.

mod play;
mod random;

use play::*;
use random::flows::flowing_parts;
use random::views::views_go_round;
use random::*;
use second_runner::{Answer, Value};
use sheets::*;

/// How many programmes of each kind are played.
const PROGRAMMES: u64 = 10_000;

/// "In any lent buffer, what no rule writes keeps what it held."
#[test]
fn entries_past_the_writes_keep_what_they_held() {
    let example = call(&example_store(), &example_programme([0, 1]), 0);
    let exactly = example.journal(2).play();
    assert_eq!(exactly.entries().len(), 2);
    for length in [3, 512, 513, 5_000] {
        let longer = example.journal(length).play();
        assert_eq!(longer.answer, exactly.answer);
        let (filled, beyond) = longer.journal.split_at(2);
        assert_eq!(filled, exactly.journal);
        assert_eq!(beyond, vec![LENT_ENTRY; length - 2]);
    }
}

/// More writes than two bytes hold: a count has four.
#[test]
fn counts_go_past_two_bytes() {
    let rounds = 70_000;
    let add = set(0, sum(slot(0), literal(integer(1))));
    let guard = less_than(slot(0), literal(integer(rounds)));
    let offset = 1 + guard.len();
    let sheet = store(&[1], &[(0, integer(0))]);
    let steps = 2 * rounds as u32 + 1;
    let call = call_block(&sheet, 0, while_do(guard, add), 3).budget(steps);
    let exactly = call.journal(rounds as usize);
    exactly.finishes(steps, &[written(rounds as u32, integer(rounds))]);
    let last = exactly.play().journal[rounds as usize - 1];
    assert_eq!((last.block, last.offset, last.slot), (0, offset, 0));
    let [old, new] = [rounds - 1, rounds].map(|integer| Value {
        kind: 0,
        payload: integer as u64,
    });
    assert_eq!((last.old, last.new), (old, new));
    let one_less = call.journal(rounds as usize - 1);
    one_less.refused(18, 0, offset, steps - 2);
}

/// A call that is refused at a step by something else than 18, with the shortest
/// journal of which that is so.
struct Refused {
    call: Call,
    answer: Answer,
    /// The length of that journal.
    shortest: usize,
    at_assignment: bool,
}

impl Refused {
    fn of(parts: &Parts) -> Option<Refused> {
        let call = parts.call();
        let answers = (0..).map(|length| call.journal(length).play().answer);
        let mut judged = answers.enumerate().filter(|(_, got)| got.number != 18);
        let (shortest, answer) = judged.next().expect("enough entries");
        matches!(answer.number, 13..=16).then(|| {
            let code = &parts.blocks[answer.block as usize].2;
            Refused {
                at_assignment: code[answer.offset as usize] == set_integer(0, 0)[0],
                call,
                answer,
                shortest,
            }
        })
    }

    /// The same place and steps, by this number.
    #[track_caller]
    fn assert_refused(&self, call: &Call, number: u32) {
        let played = call.play();
        assert_eq!(
            played.answer,
            Answer {
                number,
                ..self.answer
            }
        );
        played.assert_untouched();
    }
}

/// Those of all programmes, under every rule.
fn refused_runs() -> impl Iterator<Item = Refused> {
    let kinds = [good_parts, flowing_parts, views_go_round];
    let all = (0..PROGRAMMES).flat_map(move |seed| kinds.map(|parts| parts(seed)));
    all.zip(RULES.into_iter().cycle())
        .filter_map(|(mut parts, rule)| {
            parts.rule = rule;
            Refused::of(&parts)
        })
}

/// "18 when an assignment comes and no entry is free, judged after 17 and before
/// the target is evaluated": whatever refuses an assignment with an entry free, 18
/// does without, and 17 does where the budget is spent.
#[test]
fn a_full_journal_comes_before_all_of_an_assignment_but_17() {
    let mut counts = [0; NUMBERS];
    for run in refused_runs().filter(|run| run.at_assignment) {
        let (spent, full) = (run.answer.steps, run.shortest - 1);
        run.assert_refused(&run.call.journal(run.shortest + 7), run.answer.number);
        run.assert_refused(&run.call.journal(full), 18);
        run.assert_refused(&run.call.journal(full).budget(spent), 17);
        counts[run.answer.number as usize] += 1;
    }
    assert!(
        counts[13..=16].iter().all(|count| *count > 200),
        "{counts:?}"
    );
}

/// A guard needs no entry: what refuses it does so with a full journal too.
#[test]
fn a_full_journal_is_nothing_to_a_guard() {
    let mut counts = [0; NUMBERS];
    for run in refused_runs().filter(|run| !run.at_assignment) {
        run.assert_refused(&run.call.journal(run.shortest + 7), run.answer.number);
        let Some(full) = run.shortest.checked_sub(1) else {
            continue;
        };
        // One entry fewer, and the last assignment before the guard has none.
        let earlier = run.call.journal(full).play().answer;
        assert_eq!(earlier.number, 18);
        assert!(earlier.steps < run.answer.steps);
        counts[run.answer.number as usize] += 1;
    }
    assert!(counts[13] > 200 && counts[15] > 0, "{counts:?}");
}
