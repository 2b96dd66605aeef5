//! The proved runner, by the numbers that it answers.

use std::mem::offset_of;

use muntyzhap::raw;

use crate::answers::Answer;
use crate::calls::{Run, Stretch};
use crate::checkpoints::Checkpoint;
use crate::journals::{as_entries, Words};

pub use muntyzhap::raw::{check_store, check_table};

/// What checking a programme sheet answers, for so many principals and slots.
pub fn check_programme(sheet: &[u8], principals: usize, slots: usize) -> Answer {
    raw::check_programme(sheet, principals, slots).into()
}

pub fn run(run: &Run, output: &mut [u8], journal: &mut [Words]) -> Answer {
    let Run {
        store,
        programme,
        rule,
        budget,
        ..
    } = run;
    let journal = as_entries(journal);
    raw::run(store, programme, *rule, *budget, output, journal).into()
}

/// A stretch of a run: its start, or what is carried on.
pub fn stretch(stretch: &Stretch, output: &mut [u8], pause: &mut [u8]) -> Answer {
    let Stretch {
        store,
        programme,
        rule,
        budget,
        old,
        ..
    } = stretch;
    let (rule, budget) = (*rule, *budget);
    match old {
        None => raw::start(store, programme, rule, budget, output, pause),
        Some(Checkpoint {
            output: old_output,
            pause: old_pause,
        }) => raw::carry_on(
            store, programme, rule, budget, old_output, old_pause, output, pause,
        ),
    }
    .into()
}

// Both runners' entries have their fields at the same places.
const _: () = {
    type Second = second_runner::Entry;
    assert!(offset_of!(raw::Entry, block) == offset_of!(Second, block));
    assert!(offset_of!(raw::Entry, offset) == offset_of!(Second, offset));
    assert!(offset_of!(raw::Entry, slot) == offset_of!(Second, slot));
    assert!(offset_of!(raw::Entry, old_value.kind) == offset_of!(Second, old.kind));
    assert!(offset_of!(raw::Entry, old_value.payload) == offset_of!(Second, old.payload));
    assert!(offset_of!(raw::Entry, new_value.kind) == offset_of!(Second, new.kind));
    assert!(offset_of!(raw::Entry, new_value.payload) == offset_of!(Second, new.payload));
};

impl From<raw::Answer> for Answer {
    fn from(answer: raw::Answer) -> Answer {
        Answer {
            number: answer.number,
            block: answer.block,
            offset: answer.offset,
            steps: answer.steps,
        }
    }
}
