//! 17 and 18: a spent budget and a full journal.

use model::{count, Form};
use muntyzhap::MOST_BUDGET;
use second_runner::{Part, Stopped};

use crate::scene::Scene;

/// 17
pub fn budget_spent(scene: &Scene, stopped: &Stopped, budget: u32) -> Vec<String> {
    let mut lines = vec![spent(stopped.steps, budget)];
    if in_while(scene, stopped) {
        lines.push("  It is in a while: if that never ends, no budget is enough.".to_string());
    }
    let more = budget.max(stopped.steps) < MOST_BUDGET;
    if !(scene.paused && more) {
        lines.push(format!(
            "  What to do: {}.",
            to_do(stopped.steps, budget, more)
        ));
    }
    lines
}

fn to_do(steps: u32, budget: u32, more: bool) -> String {
    let larger = match steps > budget {
        true => format!("budget above {steps}"),
        false => "larger budget".to_string(),
    };
    match more {
        true => format!(
            "give a {larger}, up to {MOST_BUDGET} steps, or run in slices and carry on from the checkpoint"
        ),
        false => format!(
            "no run does more than {MOST_BUDGET} steps, in slices or not: let the blocks do less, or split the work into \
             runs of their own"
        ),
    }
}

/// A run that is carried on may have done more steps than its new budget has.
fn spent(steps: u32, budget: u32) -> String {
    let done = count(steps as usize, "step");
    let are = if steps == 1 { "is" } else { "are" };
    let budget_words = count(budget as usize, "step");
    match steps > budget {
        true => format!(
            "  The budget is {budget_words}, and {done} {are} done already: a budget includes the steps so far."
        ),
        false => format!(
            "  The budget is {budget_words}; {done} {are} done, and this command needs one more."
        ),
    }
}

/// Whether a while is open around the command, or is the command itself.
fn in_while(scene: &Scene, stopped: &Stopped) -> bool {
    let command = scene.command(stopped.block, stopped.offset);
    let mut guards = stopped.guards.iter();
    command.is_some_and(|command| matches!(command.form, Form::While { .. }))
        || guards.any(|guard| guard.part == Part::WhileBody)
}

/// 18
pub fn journal_full(entries: usize) -> Vec<String> {
    let filled = match entries {
        0 => "has no entry".to_string(),
        1 => "has 1 entry, which is filled".to_string(),
        _ => format!("has {entries} entries, all of them filled"),
    };
    vec![
        format!("  The journal {filled}, and an assignment needs a free one."),
        "  What to do: lend a longer journal. One with an entry for each step of the budget is never too short."
            .to_string(),
    ]
}
