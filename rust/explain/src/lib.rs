//! Says in words, with names, what a step did and why a run was refused.
//!
//! All of it comes from what the second runner saw ([`second_runner::Told`],
//! [`second_runner::Step`]). Whoever shows it holds that runner's answer to the
//! library's.

#![forbid(unsafe_code)]

mod kinds;
mod limits;
mod provenance;
mod rights;
mod scene;
mod trace;
mod words;

pub use crate::scene::Scene;
pub use crate::trace::step;

use muntyzhap::raw;
use second_runner::{Answer, Stopped, Told, Why};

use crate::provenance::TooLow;

/// Why a run was refused by 13 to 18: the number, the place and the command, what
/// was judged, and what to do. Several lines, without a line's end after the last.
/// Any other answer is told in the words of the library's wrapper.
pub fn refusal(scene: &Scene, told: &Told) -> String {
    let Some(stopped) = &told.stopped else {
        return other(told.answer);
    };
    let mut lines = vec![
        title(scene, told.answer.number, &stopped.why),
        place(scene, stopped),
    ];
    lines.extend(reasons(scene, stopped));
    lines.join("\n")
}

/// What was judged, and what to do.
fn reasons(scene: &Scene, stopped: &Stopped) -> Vec<String> {
    let region = stopped.region;
    match stopped.why {
        Why::WrongKind {
            role,
            wanted,
            ref found,
            ref reads,
        } => kinds::wrong_kind(scene, role, wanted, found, reads),
        Why::NoAuthority {
            slot,
            owner,
            ref target,
        } => rights::no_authority(scene, region, (slot, owner), target),
        Why::WriteViewNotAllowed {
            role,
            slot,
            owner,
            read_from,
        } => rights::write_view_not_allowed(scene, region, role, (slot, owner), read_from),
        Why::ProvenanceTooLow {
            slot,
            owner,
            ref target,
            ref value,
            branch_judged,
            meet,
        } => TooLow {
            scene,
            stopped,
            slot,
            owner,
            target,
            value,
            branch_judged,
            meet,
        }
        .lines(),
        Why::BudgetSpent { budget } => limits::budget_spent(scene, stopped, budget),
        Why::JournalFull { entries } => limits::journal_full(entries),
    }
}

fn other(answer: Answer) -> String {
    let refusal = muntyzhap::Refusal::from_answer(raw::Answer {
        number: answer.number,
        block: answer.block as usize,
        offset: answer.offset as usize,
        steps: answer.steps,
    });
    match refusal {
        Some(refusal) => refusal.to_string(),
        None => "not refused: the run finished".to_string(),
    }
}

fn title(scene: &Scene, number: u32, why: &Why) -> String {
    let meaning = match why {
        Why::WrongKind { .. } => "wrong kind",
        Why::NoAuthority { .. } => "no authority",
        Why::WriteViewNotAllowed { .. } => "write view not allowed",
        Why::ProvenanceTooLow { .. } => "provenance too low",
        Why::BudgetSpent { .. } => "budget spent",
        Why::JournalFull { .. } => "journal full",
    };
    let came = match why {
        Why::BudgetSpent { .. } if scene.paused => "paused",
        _ => "refused",
    };
    format!("{came} by {number}: {meaning}")
}

/// Which line, block and command, after how many steps.
fn place(scene: &Scene, stopped: &Stopped) -> String {
    let Stopped { block, offset, .. } = *stopped;
    let place = scene.place_of(block, offset);
    let block_words = scene.block_words(stopped);
    let steps = model::count(stopped.steps as usize, "step");
    let text = scene.text_after(block, offset, ": ");
    format!("  at {place}, {block_words}, offset {offset}, after {steps}{text}")
}
