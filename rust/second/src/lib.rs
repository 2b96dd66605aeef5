//! The second runner: document 01, and 02 where it changes 01, read a second
//! time, in plain Rust.
//!
//! It is written from these alone and kept apart from the proved runner, so
//! that the two can be compared on random inputs. Sheets become syntax
//! trees, and running a programme is recursion over them. A run that is spent
//! unwinds it, and one that is carried on winds it up again.
//!
//! The calls `.._told` tell each step, and of a refused one what it saw of the
//! reason: values, labels and the slots that they were read from. It is the same
//! run, watched.
//!
//! No input makes it panic: sheets are judged before they are used, and the
//! recursion is bounded by the depth of commands and of expressions.

#![forbid(unsafe_code)]

mod answer;
mod bytes;
mod code;
mod evaluate;
mod journal;
mod judged;
mod operation;
mod order;
mod pause;
mod print;
mod programme;
mod rule;
mod run;
mod sheet;
mod step;
mod stretch;
mod tell;
mod told;
mod value;
mod watch;
mod way;

pub use crate::answer::Answer;
pub use crate::journal::{Entry, Value};
pub use crate::print::{print, Input};
pub use crate::stretch::{carry_on, carry_on_told, start, start_told};
pub use crate::told::{
    Found, Guarding, Origin, Part, ReadSeen, Role, Seen, Step, StepKind, Stopped, Told, Wanted, Why,
};

use crate::answer::Refusal;
use crate::journal::Journal;
use crate::judged::Judged;
use crate::pause::Pause;
use crate::sheet::{Store, Table};
use crate::watch::{Unwatched, Watch};

/// Judges both sheets and the arguments, runs the blocks and, if they finish,
/// writes the end store to `output` and an entry for each write to `journal`,
/// whose entries past the writes keep what they held. A refusal leaves both
/// untouched.
pub fn run(
    store: &[u8],
    programme: &[u8],
    rule: u32,
    budget: u32,
    output: &mut [u8],
    journal: &mut [Entry],
) -> Answer {
    let judged = Judged::judge(store, programme, rule, budget);
    run_watched(judged, output, journal, &mut Unwatched)
}

/// The same, which tells each step to `each` as it is made, and what it saw of the
/// step that was refused.
pub fn run_told(
    store: &[u8],
    programme: &[u8],
    rule: u32,
    budget: u32,
    output: &mut [u8],
    journal: &mut [Entry],
    each: &mut dyn FnMut(&Step),
) -> Told {
    let judged = Judged::judge(store, programme, rule, budget);
    tell::told(each, |watch| run_watched(judged, output, journal, watch))
}

fn run_watched(
    judged: Result<Judged, Answer>,
    output: &mut [u8],
    journal: &mut [Entry],
    watch: &mut impl Watch,
) -> Answer {
    let end = judged.and_then(|judged| {
        judged.judge_output(output)?;
        let writes = Journal::of_length(journal.len());
        Ok(judged.run(Pause::opening(), Some(writes), watch))
    });
    let end = match end {
        Ok(end) => end,
        Err(refused) => return refused,
    };
    if end.answer.number == Answer::FINISHED {
        end.store.write_to(output);
        end.journal.iter().for_each(|writes| writes.fill(journal));
    }
    end.answer
}

/// The number that refuses a table sheet (1 to 4), or 0 if it is good.
pub fn check_table(table_sheet: &[u8]) -> u32 {
    Refusal::number_of(Table::from_sheet(table_sheet).err())
}

/// The number that refuses a store sheet (1 to 5), or 0 if it is good.
pub fn check_store(store_sheet: &[u8]) -> u32 {
    Refusal::number_of(Store::from_sheet(store_sheet).err())
}
