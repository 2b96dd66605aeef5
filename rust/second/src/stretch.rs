//! Runs in stretches (document 02, N8): a spent budget is answered by writing where
//! the run stands, and a run is carried on from there.

use crate::answer::{Answer, Refusal};
use crate::judged::Judged;
use crate::pause::Pause;
use crate::run::End;
use crate::tell;
use crate::told::{Step, Told};
use crate::watch::{Unwatched, Watch};

/// Judges both sheets and the arguments and runs the blocks. If they finish, writes
/// the end store to `output`; if the budget is spent, what the slots hold then, and
/// to `pause` where the run stands. Any other refusal leaves both untouched.
pub fn start(
    store: &[u8],
    programme: &[u8],
    rule: u32,
    budget: u32,
    output: &mut [u8],
    pause: &mut [u8],
) -> Answer {
    let judged = Judged::judge(store, programme, rule, budget);
    start_watched(judged, output, pause, &mut Unwatched)
}

/// The same, which tells each step to `each` as it is made, and what it saw of the
/// step that was refused.
pub fn start_told(
    store: &[u8],
    programme: &[u8],
    rule: u32,
    budget: u32,
    output: &mut [u8],
    pause: &mut [u8],
    each: &mut dyn FnMut(&Step),
) -> Told {
    let judged = Judged::judge(store, programme, rule, budget);
    tell::told(each, |watch| start_watched(judged, output, pause, watch))
}

fn start_watched(
    judged: Result<Judged, Answer>,
    output: &mut [u8],
    pause: &mut [u8],
    watch: &mut impl Watch,
) -> Answer {
    let end = judged.and_then(|judged| {
        judged.judge_output(output)?;
        judge_pause(pause)?;
        Ok(judged.run(Pause::opening(), None, watch))
    });
    written(end, output, pause)
}

/// Carries a run on over the same sheets, from what the old output and the old
/// pause sheet say; the budget includes the steps so far. It writes as `start` does.
// As many as the proved call has.
#[allow(clippy::too_many_arguments)]
pub fn carry_on(
    store: &[u8],
    programme: &[u8],
    rule: u32,
    budget: u32,
    old_output: &[u8],
    old_pause: &[u8],
    output: &mut [u8],
    pause: &mut [u8],
) -> Answer {
    let judged = Judged::judge(store, programme, rule, budget);
    let old = (old_output, old_pause);
    carry_on_watched(judged, old, output, pause, &mut Unwatched)
}

/// The same, which tells each step of this stretch to `each` as it is made, and
/// what it saw of the step that was refused.
#[allow(clippy::too_many_arguments)]
pub fn carry_on_told(
    store: &[u8],
    programme: &[u8],
    rule: u32,
    budget: u32,
    old_output: &[u8],
    old_pause: &[u8],
    output: &mut [u8],
    pause: &mut [u8],
    each: &mut dyn FnMut(&Step),
) -> Told {
    let judged = Judged::judge(store, programme, rule, budget);
    let old = (old_output, old_pause);
    tell::told(each, |watch| {
        carry_on_watched(judged, old, output, pause, watch)
    })
}

fn carry_on_watched(
    judged: Result<Judged, Answer>,
    (old_output, old_pause): (&[u8], &[u8]),
    output: &mut [u8],
    pause: &mut [u8],
    watch: &mut impl Watch,
) -> Answer {
    let end = judged.and_then(|judged| {
        judged.judge_output(old_output)?;
        judge_pause(old_pause)?;
        judged.judge_output(output)?;
        judge_pause(pause)?;
        let (judged, from) = taken_up(judged, old_output, old_pause).ok_or(Refusal::Checkpoint)?;
        Ok(judged.run(from, None, watch))
    });
    written(end, output, pause)
}

fn judge_pause(pause: &[u8]) -> Result<(), Refusal> {
    let fits = pause.len() == Pause::BYTES;
    fits.then_some(()).ok_or(Refusal::OutputLength)
}

/// The store and the place to carry on with, unless they are to be refused by 19.
fn taken_up(mut judged: Judged, output: &[u8], pause: &[u8]) -> Option<(Judged, Pause)> {
    let order = &judged.store.table.order;
    let from = Pause::from_sheet(pause, &judged.blocks, order)?;
    judged.store = judged.store.holding(output, from.steps)?;
    Some((judged, from))
}

/// The answer, with what it writes.
fn written(end: Result<End, Answer>, output: &mut [u8], pause: &mut [u8]) -> Answer {
    let end = match end {
        Ok(end) => end,
        Err(refused) => return refused,
    };
    match (end.answer.number, &end.stopped) {
        (Answer::FINISHED, _) => end.store.write_to(output),
        (Answer::SPENT, Some(stopped)) => {
            end.store.write_to(output);
            stopped.write_to(pause);
        }
        _ => (),
    }
    end.answer
}
