//! The rule ladder of document 02, N2, at random: an answer changes from rule 3
//! to 2 and from 2 to 0 only if it was 16, from 1 to 0 only if it was 15, with a
//! larger budget only if it was 17, and with a longer journal only if it was 18.
//! What it becomes then is what docs/LADDER.md says: each of that comes up, and
//! nothing else.

mod play;
mod random;

use play::*;
use random::flows::flowing_parts;
use random::*;
use second_runner::Answer;
use sheets::*;

/// How many calls of each kind are played.
const CALLS: u64 = 6_000;

/// How often each number was an answer.
type Counts = [u32; NUMBERS];

/// Just these numbers came up.
#[track_caller]
fn check_numbers(counts: &Counts, expected: &[usize]) {
    let came = (0..counts.len()).filter(|number| counts[*number] > 0);
    assert_eq!(came.collect::<Vec<_>>(), expected, "{counts:?}");
}

/// Two runs of the same sheets, many times over: what became of an answer.
#[derive(Default)]
struct Became {
    /// Answers that had to stay, with their outputs and entries.
    stayed: Counts,
    /// What the others became at the step that was refused, and at a later one.
    here: Counts,
    later: Counts,
}

/// The same answer, output and entries; one journal may be the longer.
#[track_caller]
fn assert_same(one: &Played, other: &Played) {
    assert_eq!(one.answer, other.answer);
    assert_eq!(one.output, other.output);
    assert_eq!(one.entries(), other.entries());
}

impl Became {
    /// Answers other than `own` stay. Of a run refused by `own`, the steps
    /// before are done again, and one more if the refused one is passed.
    fn count(&mut self, own: u32, before: &Call, after: &Call) {
        let (was, now) = (before.play(), after.play());
        let number = now.answer.number as usize;
        if was.answer.number != own {
            assert_same(&was, &now);
            self.stayed[number] += 1;
        } else if was.answer.steps == now.answer.steps {
            let place = |answer: Answer| (answer.block, answer.offset);
            assert_eq!(place(was.answer), place(now.answer));
            self.here[number] += 1;
        } else {
            assert!(was.answer.steps < now.answer.steps);
            self.later[number] += 1;
        }
    }
}

fn from_rule_to_rule(strict: u32, mild: u32, own: u32) -> Became {
    let mut became = Became::default();
    for call in calls() {
        became.count(own, &call.rule(strict), &call.rule(mild));
    }
    became
}

#[test]
fn from_3_to_2_only_16_changes() {
    let became = from_rule_to_rule(3, 2, 16);
    check_numbers(&became.stayed, &[0, 13, 14, 17, 18]);
    check_numbers(&became.here, &[16]);
    check_numbers(&became.later, &[0, 13, 14, 16, 17, 18]);
}

#[test]
fn from_2_to_0_only_16_changes() {
    let became = from_rule_to_rule(2, 0, 16);
    check_numbers(&became.stayed, &[0, 13, 14, 17, 18]);
    check_numbers(&became.here, &[]);
    check_numbers(&became.later, &[0, 13, 14, 17, 18]);
}

#[test]
fn from_1_to_0_only_15_changes() {
    let became = from_rule_to_rule(1, 0, 15);
    check_numbers(&became.stayed, &[0, 13, 17, 18]);
    check_numbers(&became.here, &[13, 14]);
    check_numbers(&became.later, &[0, 13, 14, 17, 18]);
}

#[test]
fn from_255_to_3_nothing_changes() {
    let became = from_rule_to_rule(255, 3, u32::MAX);
    check_numbers(&became.stayed, &[0, 13, 14, 16, 17, 18]);
}

/// Neither of 1 and 2, nor of 1 and 3, lets through all that the other does.
#[test]
fn rule_1_stands_in_no_order_with_2_or_3() {
    let finishes = |call: &Call, rule| call.rule(rule).play().answer.number == 0;
    for other in [2, 3] {
        let only = |one, another| {
            let apart = |call: &Call| finishes(call, one) && !finishes(call, another);
            calls().filter(apart).count()
        };
        assert!(only(1, other) > 0 && only(other, 1) > 0);
    }
}

/// Each number comes up under the rules that can give it, and under no other:
/// 14 not under 1, 15 only there, 16 only under 2 and 3.
#[test]
fn each_rule_gives_its_own_refusals_only() {
    for rule in RULES {
        let mut counts = [0; NUMBERS];
        for call in calls() {
            counts[call.rule(rule).play().answer.number as usize] += 1;
        }
        match rule {
            0 => check_numbers(&counts, &[0, 13, 14, 17, 18]),
            1 => check_numbers(&counts, &[0, 13, 15, 17, 18]),
            _ => check_numbers(&counts, &[0, 13, 14, 16, 17, 18]),
        }
    }
}

#[test]
fn a_larger_budget_alters_only_spent_runs() {
    for rule in RULES {
        let mut became = Became::default();
        for call in calls() {
            let call = call.rule(rule);
            became.count(17, &call, &call.budget(call.budget + 7));
        }
        let refusals = refusals_of_steps(rule);
        check_numbers(&became.stayed, &[&[0], refusals, &[18]].concat());
        check_numbers(&became.here, &[refusals, &[18]].concat());
        check_numbers(&became.later, &[&[0], refusals, &[17, 18]].concat());
    }
}

/// 18 is judged after 17, so a longer journal does not make a run spent where it
/// was full; and before the target, so anything of the step may come instead.
#[test]
fn a_longer_journal_alters_only_full_ones() {
    for rule in RULES {
        let mut became = Became::default();
        for call in calls() {
            let call = call.rule(rule);
            became.count(18, &call, &call.journal(call.journal + 3));
        }
        let refusals = refusals_of_steps(rule);
        check_numbers(&became.stayed, &[&[0], refusals, &[17]].concat());
        check_numbers(&became.here, refusals);
        check_numbers(&became.later, &[&[0], refusals, &[17, 18]].concat());
    }
}

/// What a rule refuses steps by, budget and journal apart.
fn refusals_of_steps(rule: u32) -> &'static [usize] {
    match rule {
        0 => &[13, 14],
        1 => &[13, 15],
        _ => &[13, 14, 16],
    }
}

/// Calls of the grammar, and such in which low values flow up.
fn calls() -> impl Iterator<Item = Call> {
    let of_grammar = (0..CALLS).map(good_call);
    of_grammar.chain((0..CALLS).map(|seed| flowing_parts(seed).call()))
}
