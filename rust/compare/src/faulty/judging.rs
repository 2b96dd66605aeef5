//! 18 is judged elsewhere, or by something else.

use crate::ample::AMPLE;
use crate::answers::Answer;
use crate::calls::{Run, Runner};
use crate::code::Command;
use crate::decode::command_at;
use crate::journals::{as_entries, Words};
use crate::outputs::writes_in;
use crate::rehearsal::Rehearsal;
use crate::second;
use crate::steps::Followed;
use crate::values::Value;
use second_runner::Entry;

pub const ALL: [(&str, Runner); 7] = [
    ("18 is judged after the target", full_after_target),
    ("18 is judged after the rule", full_after_rule),
    ("18 is judged before 17", full_before_spent),
    ("a guard needs an entry", guards_need_entries),
    ("the last entry is never free", one_entry_short),
    ("the step that 18 refuses is counted", counts_refused_step),
    (
        "writes are made for which no entry is free",
        goes_on_without_entry,
    ),
];

/// What the second runner answers to the same run with another budget and another
/// journal.
fn elsewhere(run: &Run, budget: u32, journal_length: usize) -> Answer {
    let other = Run {
        budget,
        journal_length,
        ..run.clone()
    };
    other.second().answer
}

/// Whether both have one place and as many steps.
fn is_same_place(one: Answer, other: Answer) -> bool {
    let number = one.number;
    Answer { number, ..other } == one
}

/// The second runner, but that 18 is judged last in assignments that this holds of.
fn full_late(
    run: &Run,
    output: &mut [u8],
    journal: &mut [Words],
    test: fn(&Rehearsal, &Command) -> bool,
) -> Answer {
    let answer = second::run(run, output, journal);
    let other = elsewhere(run, run.budget, journal.len() + 1);
    let late = (answer.number, is_same_place(answer, other)) == (18, true);
    let Some(followed) = Followed::of(run, answer).filter(|_| late) else {
        return answer;
    };
    let stage = followed.play(&mut ());
    let refused = followed.refused();
    match followed.is_whole() && refused.is_some_and(|command| test(&stage, &command)) {
        true => other,
        false => answer,
    }
}

fn full_after_target(run: &Run, output: &mut [u8], journal: &mut [Words]) -> Answer {
    full_late(run, output, journal, |stage, command| match command {
        Command::Assign { target, .. } => {
            !matches!(stage.evaluate(target), Some((Value::WriteView(_), _)))
        }
        _ => false,
    })
}

fn full_after_rule(run: &Run, output: &mut [u8], journal: &mut [Words]) -> Answer {
    full_late(run, output, journal, |stage, command| {
        stage.assigning(command, 0).is_some()
    })
}

fn full_before_spent(run: &Run, output: &mut [u8], journal: &mut [Words]) -> Answer {
    let answer = second::run(run, output, journal);
    let other = elsewhere(run, run.budget.saturating_add(1), journal.len());
    match (answer.number, other.number) {
        (17, 18) if is_same_place(answer, other) => other,
        _ => answer,
    }
}

/// The last step of a run, if it is a guard.
fn guards_need_entries(run: &Run, output: &mut [u8], journal: &mut [Words]) -> Answer {
    let whole = elsewhere(run, run.budget, journal.len());
    let full = journal.is_empty() || elsewhere(run, run.budget, journal.len() - 1).number == 18;
    let before = whole
        .steps
        .checked_sub(1)
        .filter(|_| full && whole.number == 0);
    let last = before.map(|budget| elsewhere(run, budget, journal.len()));
    let guard = last.filter(|last| {
        let command = command_at(&run.programme, last.block, last.offset);
        matches!(command, Some(Command::If { .. } | Command::While { .. }))
    });
    match guard {
        Some(last) => Answer { number: 18, ..last },
        None => second::run(run, output, journal),
    }
}

fn one_entry_short(run: &Run, output: &mut [u8], journal: &mut [Words]) -> Answer {
    let length = journal.len().saturating_sub(1);
    second::run(run, output, &mut journal[..length])
}

fn counts_refused_step(run: &Run, output: &mut [u8], journal: &mut [Words]) -> Answer {
    let answer = second::run(run, output, journal);
    let steps = answer.steps + u32::from(answer.number == 18);
    Answer { steps, ..answer }
}

fn goes_on_without_entry(run: &Run, output: &mut [u8], journal: &mut [Words]) -> Answer {
    let mut longer = vec![Entry::default(); journal.len() + AMPLE as usize];
    let answer = second::run_with(run, output, &mut longer);
    if answer.number == 0 {
        let filled = writes_in(output).expect("a good output").min(journal.len());
        as_entries(journal)[..filled].copy_from_slice(&longer[..filled]);
    }
    answer
}
