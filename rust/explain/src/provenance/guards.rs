//! The guards that a branch's label came from.

use model::{Expression, Form, Value};
use second_runner::{Guarding, Part, Stopped};

use crate::scene::Scene;

/// Those that pull the label down, the outermost first.
pub fn low(scene: &Scene, stopped: &Stopped, is_low: impl Fn(u8) -> bool) -> Vec<String> {
    let mut outside = None;
    let mut low = Vec::new();
    for guarding in &stopped.guards {
        let lowers = match &guarding.guard {
            Some(guard) => is_low(guard.label),
            // What is kept of an earlier stretch is the label inside.
            None => is_low(guarding.label) && outside != Some(guarding.label),
        };
        if lowers {
            low.push(told(scene, stopped.block, guarding, &is_low));
        }
        outside = Some(guarding.label);
    }
    low
}

/// "in the then-part of `if ready` at deputy.mz:5:9, read from ready, which digA
/// owns"
fn told(scene: &Scene, block: usize, guarding: &Guarding, is_low: impl Fn(u8) -> bool) -> String {
    let (part, command) = match guarding.part {
        Part::IfThen => ("then-part", "if"),
        Part::IfElse => ("else-part", "if"),
        Part::WhileBody => ("body", "while"),
    };
    let text = scene.text(block, guarding.offset);
    let text = text.unwrap_or(command.to_string());
    let place = scene.place_of(block, guarding.offset);
    let source = match &guarding.guard {
        Some(guard) => scene.read_from(guard, is_low).unwrap_or_default(),
        None => "judged in an earlier stretch".to_string(),
    };
    format!("in the {part} of `{text}` at {place}, {source}")
}

/// The owners and slots of all that the open guards read. Of a guard of an earlier
/// stretch these are the slots that it names; none if it reads others too.
pub fn reads(scene: &Scene, stopped: &Stopped) -> Option<Vec<(u8, usize)>> {
    let mut reads = vec![];
    for guarding in &stopped.guards {
        match &guarding.guard {
            Some(guard) => reads.extend(guard.reads.iter().map(|read| (read.owner, read.slot))),
            None => {
                let command = scene.command(stopped.block, guarding.offset)?;
                let (Form::If { guard, .. } | Form::While { guard, .. }) = &command.form else {
                    return None;
                };
                named(scene, guard, &mut reads)?;
            }
        }
    }
    Some(reads)
}

/// The slots that an expression reads by their names; none if it reads others too.
fn named(scene: &Scene, of: &Expression, reads: &mut Vec<(u8, usize)>) -> Option<()> {
    match of {
        Expression::Literal(_) => Some(()),
        Expression::Read(view) => match **view {
            Expression::Literal(Value::ReadView(slot)) => {
                let slot = usize::from(slot);
                reads.push((*scene.owners.get(slot)?, slot));
                Some(())
            }
            _ => None,
        },
        Expression::Operation(_, left, right) => {
            named(scene, left, reads)?;
            named(scene, right, reads)
        }
    }
}
