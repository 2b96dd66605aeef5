//! A line for each step.

use second_runner::{Step, StepKind};

use crate::scene::Scene;

/// A step in one line: its number, its place, block and command, what it did, and
/// the labels.
pub fn step(scene: &Scene, step: &Step) -> String {
    let Step {
        number,
        block,
        offset,
        ..
    } = *step;
    let place = scene.place_of(block, offset);
    let text = scene.text_after(block, offset, "  ");
    let block = block_words(scene, block);
    let (what, labels) = (what(scene, step), labels(scene, step));
    format!("step {number}  {place}  {block}{text}  |  {what}  |  {labels}")
}

/// "block 0 (digA)", or with its name "block 0 (send, digA)".
fn block_words(scene: &Scene, number: usize) -> String {
    let region = scene
        .blocks
        .get(number)
        .map(|block| scene.principal(block.region));
    let name = scene.names.block(number).map(str::to_string);
    let known: Vec<String> = name.into_iter().chain(region).collect();
    format!("block {number} ({})", known.join(", "))
}

fn what(scene: &Scene, step: &Step) -> String {
    match &step.what {
        StepKind::Guard { holds, .. } => holds.to_string(),
        StepKind::Write {
            slot, old, value, ..
        } => {
            let (old, new) = (scene.value(*old), scene.value(value.value));
            format!("{}: {old} -> {new}", scene.slot(*slot))
        }
    }
}

fn labels(scene: &Scene, step: &Step) -> String {
    let name = |principal| scene.principal(principal);
    let branch = name(step.branch);
    match &step.what {
        StepKind::Guard { guard, inside, .. } => {
            let (guard, inside) = (name(guard.label), name(*inside));
            format!("guard {guard}, branch {branch}, inside {inside}")
        }
        StepKind::Write { target, value, .. } => {
            let (target, value) = (name(target.label), name(value.label));
            format!("target {target}, value {value}, branch {branch}")
        }
    }
}
