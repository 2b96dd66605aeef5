//! What a run tells of its steps and of the one that was refused, at random: it
//! changes no answer, and is what the rules say of the same sheets.

mod play;
mod random;
mod retold;

use play::*;
use random::flows::flowing_parts;
use random::views::views_go_round;
use random::*;
use retold::Retold;
use second_runner::{
    run_told, Entry, Found, Origin, Part, Role, Step, StepKind, Told, Wanted, Why,
};
use sheets::*;
use std::collections::BTreeMap;

/// How many programmes of each kind are played.
const PROGRAMMES: u64 = 5_000;
/// Some runs have no end.
const MOST_STEPS: u32 = 60;

/// Programmes of every kind, under every rule.
fn all_parts() -> impl Iterator<Item = Parts> {
    let kinds = [good_parts, flowing_parts, views_go_round];
    let all = (0..PROGRAMMES).flat_map(move |seed| kinds.map(|parts| parts(seed)));
    all.zip(RULES.into_iter().cycle()).map(|(mut parts, rule)| {
        parts.rule = rule;
        parts.budget = parts.budget.min(MOST_STEPS);
        parts
    })
}

/// What a call tells, and what was lent to it then.
struct Heard {
    told: Told,
    steps: Vec<Step>,
    played: Played,
}

fn hear(call: &Call) -> Heard {
    // As it is lent to a plain call.
    let mut played = call.rule(u32::MAX).play();
    let mut steps = Vec::new();
    let told = run_told(
        &call.store,
        &call.programme,
        call.rule,
        call.budget,
        &mut played.output,
        &mut played.journal,
        &mut |step| steps.push(step.clone()),
    );
    played.answer = told.answer;
    Heard {
        told,
        steps,
        played,
    }
}

fn number(why: &Why) -> u32 {
    match why {
        Why::WrongKind { .. } => 13,
        Why::NoAuthority { .. } => 14,
        Why::WriteViewNotAllowed { .. } => 15,
        Why::ProvenanceTooLow { .. } => 16,
        Why::BudgetSpent { .. } => 17,
        Why::JournalFull { .. } => 18,
    }
}

#[test]
fn a_call_that_tells_answers_and_writes_what_a_plain_one_does() {
    let mut counts = [0; NUMBERS];
    for parts in all_parts() {
        let call = parts.call();
        let heard = hear(&call);
        assert_eq!(heard.played, call.play());
        counts[heard.told.answer.number as usize] += 1;
    }
    let came = [0, 13, 14, 15, 16, 17, 18].map(|number| counts[number]);
    assert!(came.iter().all(|count| *count > 100), "{counts:?}");
}

/// A call that is refused before its first step tells none, and no cause.
#[test]
fn refused_sheets_and_arguments_tell_nothing() {
    let good = call(&example_store(), &example_programme([0, 1]), 0);
    let bad = [good.rule(4), good.budget(1_000_001), call(&[], &[], 0)];
    for call in bad {
        let heard = hear(&call);
        assert!(matches!(heard.told.answer.number, 1 | 11));
        assert_eq!((heard.told.stopped, heard.steps), (None, vec![]));
    }
}

/// As many steps as the answer says, in order; played again, they give the output
/// and the journal.
#[test]
fn the_steps_told_are_the_run() {
    let mut finished = 0;
    for parts in all_parts() {
        let heard = hear(&parts.call());
        let mut retold = Retold::opening(&parts);
        heard.steps.iter().for_each(|step| retold.step(step));
        assert_eq!(retold.steps, heard.told.answer.steps);
        if heard.told.answer.number != 0 {
            continue;
        }
        let end = retold.held.iter().zip(&retold.writes);
        let end = end.map(|(value, writes)| {
            let payload = value.payload.to_le_bytes();
            written(*writes, join(&[&[value.kind], &payload]))
        });
        assert_eq!(output(&end.collect::<Vec<_>>()), heard.played.output);
        let entries: Vec<Entry> = heard.steps.iter().filter_map(entry).collect();
        assert_eq!(entries, heard.played.entries());
        finished += usize::from(!entries.is_empty());
    }
    assert!(finished > 1_000, "{finished}");
}

/// The entry of a write.
fn entry(step: &Step) -> Option<Entry> {
    match &step.what {
        StepKind::Guard { .. } => None,
        StepKind::Write {
            slot, old, value, ..
        } => Some(Entry {
            block: step.block,
            offset: step.offset as usize,
            slot: *slot,
            old: *old,
            new: value.value,
        }),
    }
}

/// The cause is there for 13 to 18 alone, at the answer's place, and holds.
#[test]
fn a_cause_is_told_of_the_step_that_is_refused() {
    let mut came: BTreeMap<String, u32> = BTreeMap::new();
    for parts in all_parts() {
        let Heard { told, steps, .. } = hear(&parts.call());
        let Told { answer, stopped } = told;
        assert_eq!(stopped.is_some(), (13..=18).contains(&answer.number));
        let Some(stopped) = stopped else {
            continue;
        };
        assert_eq!(number(&stopped.why), answer.number);
        let place = (stopped.block as u32, stopped.offset, stopped.steps);
        assert_eq!(place, (answer.block, answer.offset, answer.steps));
        let mut retold = Retold::opening(&parts);
        steps.iter().for_each(|step| retold.step(step));
        retold.assert_stopped(&stopped);
        retold.assert_branch(&stopped);
        for kind in kinds(&stopped.why) {
            *came.entry(kind).or_default() += 1;
        }
        for guarding in &stopped.guards {
            *came.entry(format!("{:?}", guarding.part)).or_default() += 1;
        }
    }
    for kind in expected_kinds() {
        assert!(came.contains_key(&kind), "{kind} of {came:?}");
    }
}

/// What a test wants to have seen of a cause.
fn kinds(why: &Why) -> Vec<String> {
    let kind = match why {
        Why::WrongKind {
            role,
            wanted,
            found,
            ..
        } => {
            assert!(is_wrong(*wanted, found), "{why:?}");
            let origins = found.iter().map(|found| origin(found.from).to_string());
            let wrong = format!("13 {role:?} {wanted:?}");
            return origins.chain([wrong]).collect();
        }
        Why::WriteViewNotAllowed {
            role, read_from, ..
        } => format!("15 {role:?} read {}", read_from.is_some()),
        Why::ProvenanceTooLow { branch_judged, .. } => format!("16 branch {branch_judged}"),
        other => number(other).to_string(),
    };
    vec![kind]
}

fn origin(origin: Origin) -> &'static str {
    match origin {
        Origin::Literal => "literal",
        Origin::Slot(_) => "slot",
        Origin::Operation(_) => "operation",
    }
}

/// Whether the values found are not of the kind that is needed.
fn is_wrong(wanted: Wanted, found: &[Found]) -> bool {
    let kinds: Vec<u8> = found.iter().map(|found| found.value.kind).collect();
    match (wanted, kinds.as_slice()) {
        (Wanted::Truth, [kind]) => *kind != 1,
        (Wanted::ReadView, [kind]) => *kind != 2,
        (Wanted::WriteView, [kind]) => *kind != 3,
        (Wanted::Integers(SUM | DIFFERENCE | LESS_THAN), kinds) => {
            kinds.len() == 2 && kinds != [0, 0]
        }
        _ => false,
    }
}

fn expected_kinds() -> Vec<String> {
    let roles = [Role::Guard, Role::Target, Role::Value];
    let mut kinds = vec![
        "13 Guard Truth".to_string(),
        "13 Target WriteView".to_string(),
    ];
    for role in roles {
        kinds.push(format!("13 {role:?} ReadView"));
        for byte in [SUM, DIFFERENCE, LESS_THAN] {
            kinds.push(format!("13 {role:?} {:?}", Wanted::Integers(byte)));
        }
        kinds.push(format!("15 {role:?} read true"));
        kinds.push(format!("15 {role:?} read false"));
    }
    kinds.extend(["literal", "slot", "operation"].map(str::to_string));
    kinds.extend(["14", "16 branch true", "16 branch false", "17", "18"].map(str::to_string));
    kinds.extend([Part::IfThen, Part::IfElse, Part::WhileBody].map(|part| format!("{part:?}")));
    kinds
}
