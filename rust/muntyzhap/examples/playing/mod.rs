//! One run under a rule, and how it ended, in words.

use muntyzhap::sheet::command_at;
use muntyzhap::{run, Refusal, Rule};

use crate::laboratory::print_slots;

const BUDGET: u32 = 10;

/// Runs a programme, and prints the rule, and then the end store and what was
/// written, or the refusal.
pub fn play(store: &[u8], programme: &[u8], rule: Rule) {
    println!("rule {}, {rule}", rule.number());
    match run(store, programme, rule, BUDGET) {
        Ok(finished) => {
            let (blocks, steps) = (finished.blocks, finished.steps);
            println!("finished: {blocks} blocks, {steps} steps");
            print_slots(&finished.slots);
            println!("{}", finished.report());
        }
        Err(refusal) => print_refusal(&refusal, programme),
    }
}

/// Prints what was refused, and the command that stands there.
fn print_refusal(refusal: &Refusal, programme: &[u8]) {
    println!("{refusal}");
    let command = refusal
        .place()
        .and_then(|place| command_at(programme, place));
    if let Some(command) = command {
        println!("the command there: {command}");
    }
}
