//! The second runner, asked in the proved library's way.

use crate::answers::Answer;
use crate::calls::{Run, Stretch};
use crate::checkpoints::Checkpoint;
use crate::journals::{as_entries, Words};
use crate::outputs::output_length;
use crate::sheets::plain_store;

/// What checking a programme sheet answers, for so many principals and slots. A run
/// over a good store comes to it: with an output of the right length and no
/// budget, what is left to be answered is 6 to 10, or else the programme is
/// good and its run finishes (0) or is spent (17).
pub fn check_programme(sheet: &[u8], principals: usize, slots: usize) -> Answer {
    let store = plain_store(principals, slots).bytes();
    let mut output = vec![0; output_length(slots)];
    let answer: Answer = second_runner::run(&store, sheet, 0, 0, &mut output, &mut []).into();
    match answer.number {
        6..=10 => answer,
        0 | 17 => Answer::only(0),
        other => unreachable!("{other} for a good store and no budget"),
    }
}

pub fn run(run: &Run, output: &mut [u8], journal: &mut [Words]) -> Answer {
    run_with(run, output, as_entries(journal))
}

/// The same with the second runner's own entries.
pub fn run_with(run: &Run, output: &mut [u8], journal: &mut [second_runner::Entry]) -> Answer {
    let Run {
        store,
        programme,
        rule,
        budget,
        ..
    } = run;
    second_runner::run(store, programme, *rule, *budget, output, journal).into()
}

/// A stretch of a run: its start, or what is carried on.
pub fn stretch(stretch: &Stretch, output: &mut [u8], pause: &mut [u8]) -> Answer {
    let Stretch {
        store,
        programme,
        rule,
        budget,
        old,
        ..
    } = stretch;
    let (rule, budget) = (*rule, *budget);
    match old {
        None => second_runner::start(store, programme, rule, budget, output, pause),
        Some(Checkpoint {
            output: old_output,
            pause: old_pause,
        }) => second_runner::carry_on(
            store, programme, rule, budget, old_output, old_pause, output, pause,
        ),
    }
    .into()
}
