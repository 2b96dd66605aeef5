//! Plays a call on the second runner, and keeps what it tells.

use second_runner::{run_told, Entry, Step, Told};
use sheets::Call;

/// What a call tells, with its steps.
pub fn tell(call: &Call) -> (Told, Vec<Step>) {
    let mut output = vec![0; call.output_bytes()];
    let mut journal = vec![Entry::default(); call.journal];
    let mut steps = Vec::new();
    let told = run_told(
        &call.store,
        &call.programme,
        call.rule,
        call.budget,
        &mut output,
        &mut journal,
        &mut |step| steps.push(step.clone()),
    );
    (told, steps)
}
