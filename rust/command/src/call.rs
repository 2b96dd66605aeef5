//! Runs: by the library, whose answer is the answer, and by the second runner,
//! which tells what it saw and is held to the library.

use muntyzhap::raw::{self, Answer};
use muntyzhap::sheet::{end_store, output_bytes};
use muntyzhap::{Checkpoint, MOST_BUDGET};
use second_runner::{Step, Told};

use crate::checkpoint::Paused;
use crate::ending::Failure;
use crate::plain;

/// The answers that a run in stretches writes something for.
pub const FINISHED: u32 = 0;
pub const BUDGET_SPENT: u32 = 17;
/// The answer to a write that finds no free entry.
const JOURNAL_FULL: u32 = 18;

/// What is run, and how.
#[derive(Debug, Clone, Copy)]
pub struct Call<'a> {
    pub store: &'a [u8],
    pub programme: &'a [u8],
    pub rule: u32,
    pub budget: u32,
    pub way: Way<'a>,
}

#[derive(Debug, Clone, Copy)]
pub enum Way<'a> {
    /// In one go, with a journal of so many entries.
    Journalled(usize),
    /// As a stretch that can be paused, from the opening or from where the one
    /// before was.
    Stretch(Option<&'a Paused>),
}

/// What a call came to. What it did not write is zeros.
#[derive(Debug, Clone, PartialEq, Eq)]
pub struct Came {
    pub answer: Answer,
    /// The journal's entries that were written, of a run that finished.
    pub journal: Vec<raw::Entry>,
    /// The output, and for a run that can be paused its pause sheet.
    pub left: Paused,
}

impl Came {
    pub fn finished(&self) -> bool {
        self.answer.number == FINISHED
    }

    pub fn spent(&self) -> bool {
        self.answer.number == BUDGET_SPENT
    }

    pub fn journal_full(&self) -> bool {
        self.answer.number == JOURNAL_FULL
    }

    /// The writes of a run over this store; none of one that did not finish.
    pub fn writes(&self, store: &[u8]) -> usize {
        let slots = end_store(store, &self.left.out).filter(|_| self.finished());
        let writes = slots.iter().flatten().map(|slot| slot.writes() as usize);
        writes.sum()
    }

    /// The same without the entries that were not written.
    fn without_unused(mut self, store: &[u8]) -> Came {
        self.journal.truncate(self.writes(store));
        self
    }
}

impl Call<'_> {
    /// Buffers as long as the call asks for.
    pub fn room(&self) -> Paused {
        let pause = match self.way {
            Way::Journalled(_) => 0,
            Way::Stretch(_) => Checkpoint::PAUSE_BYTES,
        };
        Paused {
            out: vec![0; output_bytes(self.store)],
            pause: vec![0; pause],
        }
    }

    /// The library's answer.
    pub fn by_library(&self) -> Came {
        let Call {
            store,
            programme,
            rule,
            budget,
            way,
        } = *self;
        let mut left = self.room();
        let Paused { out, pause } = &mut left;
        let mut journal = vec![];
        let answer = match way {
            Way::Journalled(entries) => {
                journal = vec![raw::Entry::default(); lent(entries, budget)];
                raw::run(store, programme, rule, budget, out, &mut journal)
            }
            Way::Stretch(None) => raw::start(store, programme, rule, budget, out, pause),
            Way::Stretch(Some(old)) => {
                let (old, sheet) = (&old.out, &old.pause);
                raw::carry_on(store, programme, rule, budget, old, sheet, out, pause)
            }
        };
        let came = Came {
            answer,
            journal,
            left,
        };
        came.without_unused(store)
    }

    /// The second runner's answer, with each step told as it is made, and what it
    /// saw of the one that was refused.
    pub fn by_second(&self, each: &mut dyn FnMut(&Step)) -> (Came, Told) {
        let Call {
            store,
            programme,
            rule,
            budget,
            way,
        } = *self;
        let mut left = self.room();
        let Paused { out, pause } = &mut left;
        let mut journal = vec![];
        let told = match way {
            Way::Journalled(entries) => {
                journal = vec![second_runner::Entry::default(); lent(entries, budget)];
                second_runner::run_told(store, programme, rule, budget, out, &mut journal, each)
            }
            Way::Stretch(None) => {
                second_runner::start_told(store, programme, rule, budget, out, pause, each)
            }
            Way::Stretch(Some(old)) => {
                let (old, sheet) = (&old.out, &old.pause);
                second_runner::carry_on_told(
                    store, programme, rule, budget, old, sheet, out, pause, each,
                )
            }
        };
        let came = Came {
            answer: as_library(told.answer),
            journal: journal.iter().map(entry).collect(),
            left,
        };
        (came.without_unused(store), told)
    }
}

/// An entry beyond the budget's steps is never filled, and changes no answer.
fn lent(entries: usize, budget: u32) -> usize {
    entries.min(budget.min(MOST_BUDGET) as usize)
}

fn as_library(answer: second_runner::Answer) -> Answer {
    Answer {
        number: answer.number,
        block: answer.block as usize,
        offset: answer.offset as usize,
        steps: answer.steps,
    }
}

fn entry(entry: &second_runner::Entry) -> raw::Entry {
    let value = |value: second_runner::Value| raw::Value {
        kind: value.kind,
        payload: value.payload,
    };
    raw::Entry {
        block: entry.block,
        offset: entry.offset,
        slot: entry.slot,
        old_value: value(entry.old),
        new_value: value(entry.new),
    }
}

/// Holds the second runner to the library: answer, output, journal and pause sheet.
pub fn held(library: &Came, second: &Came) -> Result<(), Failure> {
    let differ = |what: &str, one: String, other: String| {
        Err(Failure::told(format!(
            "the two runners differ, so neither is to be relied on: {what} of the library is {one}, \
             of the second runner {other}"
        )))
    };
    if library.answer != second.answer {
        let told = |came: &Came| plain::answer(&came.answer).trim_end().to_string();
        return differ("the answer", told(library), told(second));
    }
    if library.journal != second.journal {
        let both = library.journal.iter().zip(&second.journal);
        let same = both.take_while(|(one, other)| one == other).count();
        let told = |came: &Came| match came.journal.get(same) {
            Some(entry) => format!("{entry:?}"),
            None => "missing".to_string(),
        };
        let what = format!("entry {} of the journal", same + 1);
        return differ(&what, told(library), told(second));
    }
    if library.left != second.left {
        let told = |came: &Came| hexadecimal(&[&came.left.out[..], &came.left.pause].concat());
        return differ("the output", told(library), told(second));
    }
    Ok(())
}

fn hexadecimal(bytes: &[u8]) -> String {
    bytes.iter().map(|byte| format!("{byte:02X}")).collect()
}

#[cfg(test)]
mod tests {
    use super::*;

    fn came() -> Came {
        Came {
            answer: Answer::only(FINISHED),
            journal: vec![raw::Entry::default(); 2],
            left: Paused {
                out: vec![1, 2],
                pause: vec![3],
            },
        }
    }

    #[test]
    fn what_differs_is_told() {
        assert_eq!(held(&came(), &came()), Ok(()));
        type Change = fn(&mut Came);
        let changes: [(Change, &str); 5] = [
            (
                |came| came.answer.number = 16,
                "of the second runner end 16 block 0 at 0 steps 0",
            ),
            (
                |came| came.journal[1].slot = 1,
                "entry 2 of the journal of the library is Entry {",
            ),
            (
                |came| came.journal.truncate(1),
                "of the second runner missing",
            ),
            (
                |came| came.left.out[0] = 9,
                "is 010203, of the second runner 090203",
            ),
            (
                |came| came.left.pause[0] = 9,
                "is 010203, of the second runner 010209",
            ),
        ];
        for (change, expected) in changes {
            let mut second = came();
            change(&mut second);
            let Err(Failure::Told(words)) = held(&came(), &second) else {
                panic!("{expected}");
            };
            assert!(words.contains(expected), "{words}");
        }
    }
}
