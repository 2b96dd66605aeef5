//! What document 02 says of the journal and the counts that a finished run leaves,
//! held to the bytes alone.

use std::fmt::{self, Display, Formatter};

use super::{Entry, ValueBytes};
use crate::calls::Run;
use crate::code::{Command, Endorsement};
use crate::decode::store_in;
use crate::layout::Layout;
use crate::outputs::{records_in, Record};
use crate::sheets::Store;
use crate::values::Value;

/// What is wrong with the output and the entries of a run that finished.
#[derive(Debug, Clone, Copy, PartialEq, Eq)]
pub enum Fault {
    /// A sheet is not good, or the output is not that of its slots.
    Bytes,
    /// "That total equals the entries filled."
    Total { total: usize, filled: usize },
    /// "for each slot the count equals the entries that name it"
    Count { slot: usize },
    /// The entry names no slot, or no assignment of its block.
    Place { entry: usize },
    /// Its block was over before.
    Order { entry: usize },
    /// The region of its block does not stand at or above the slot's owner.
    Authority { entry: usize },
    /// "Walking the entries backwards restores the opening values." This one's new
    /// value is not what the slot then holds.
    Back { entry: usize },
    /// At the opening, walking back has left another value.
    Opening { slot: usize },
    /// Walking forwards gives the end store. This one's old value is not what the
    /// slot then holds.
    On { entry: usize },
    /// At the end, walking forwards has left another value.
    End { slot: usize },
}

impl Display for Fault {
    fn fmt(&self, out: &mut Formatter) -> fmt::Result {
        match self {
            Fault::Bytes => write!(out, "a sheet or the output is not good"),
            Fault::Total { total, filled } => {
                write!(out, "counts of {total} writes, {filled} entries filled")
            }
            Fault::Count { slot } => write!(out, "slot {slot}: not the entries that name it"),
            Fault::Place { entry } => write!(out, "entry {entry}: no slot or assignment"),
            Fault::Order { entry } => write!(out, "entry {entry}: its block was over before"),
            Fault::Authority { entry } => write!(out, "entry {entry}: its block lacks authority"),
            Fault::Back { entry } => write!(out, "entry {entry}: not the value, walking back"),
            Fault::Opening { slot } => write!(out, "slot {slot}: not its opening value"),
            Fault::On { entry } => write!(out, "entry {entry}: not the value, walking on"),
            Fault::End { slot } => write!(out, "slot {slot}: not its end value"),
        }
    }
}

/// A run that finished, and what it left.
struct Finished<'a> {
    programme: &'a [u8],
    layout: Layout,
    opening: Store,
    end: Vec<Record>,
    entries: &'a [Entry],
}

/// Finds a fault in what a run left that finished.
pub fn walk(run: &Run, output: &[u8], entries: &[Entry]) -> Result<(), Fault> {
    let finished = Finished::of(run, output, entries).ok_or(Fault::Bytes)?;
    finished.judge_counts()?;
    finished.judge_places()?;
    finished.walk_back()?;
    finished.walk_on()
}

impl<'a> Finished<'a> {
    fn of(run: &'a Run, output: &[u8], entries: &'a [Entry]) -> Option<Finished<'a>> {
        let (opening, end) = (store_in(&run.store)?, records_in(output)?);
        let fits = opening.values.len() == end.len();
        fits.then_some(Finished {
            programme: &run.programme,
            layout: Layout::of(&run.programme)?,
            opening,
            end,
            entries,
        })
    }

    fn numbered(&self) -> impl DoubleEndedIterator<Item = (usize, &'a Entry)> {
        self.entries.iter().enumerate()
    }

    fn judge_counts(&self) -> Result<(), Fault> {
        let filled = self.entries.len();
        let counts: Vec<usize> = self.end.iter().map(|slot| slot.count as usize).collect();
        let total = counts.iter().sum();
        if total != filled {
            return Err(Fault::Total { total, filled });
        }
        let mut named = vec![0; counts.len()];
        for (entry, filled) in self.numbered() {
            let name = named.get_mut(filled.slot);
            *name.ok_or(Fault::Place { entry })? += 1;
        }
        alike(&named, &counts).map_err(|slot| Fault::Count { slot })
    }

    /// Each entry names an assignment of a block that may write the slot, and
    /// blocks come in order.
    fn judge_places(&self) -> Result<(), Fault> {
        let mut last = 0;
        for (entry, filled) in self.numbered() {
            let code = self.layout.code_of(self.programme, filled.block);
            let byte = code.and_then(|code| code.get(filled.offset));
            if byte != Some(&Command::ASSIGN) {
                return Err(Fault::Place { entry });
            }
            if filled.block < last {
                return Err(Fault::Order { entry });
            }
            last = filled.block;
            if !self.may_write(filled.block, filled.slot) {
                return Err(Fault::Authority { entry });
            }
        }
        Ok(())
    }

    fn may_write(&self, block: usize, slot: usize) -> bool {
        let (region, _) = self.layout.header(self.programme, block);
        let table = &self.opening.table;
        let owner = table.owners[slot];
        table.lattice.at_or_below(owner, region % Endorsement::MARK)
    }

    fn opening_values(&self) -> Vec<ValueBytes> {
        let values = self.opening.values.iter().copied();
        values.map(Value::bytes).collect()
    }

    fn end_values(&self) -> Vec<ValueBytes> {
        self.end.iter().map(|slot| slot.value.bytes()).collect()
    }

    fn walk_back(&self) -> Result<(), Fault> {
        let mut held = self.end_values();
        for (entry, filled) in self.numbered().rev() {
            let slot = &mut held[filled.slot];
            if *slot != filled.new {
                return Err(Fault::Back { entry });
            }
            *slot = filled.old;
        }
        alike(&held, &self.opening_values()).map_err(|slot| Fault::Opening { slot })
    }

    fn walk_on(&self) -> Result<(), Fault> {
        let mut held = self.opening_values();
        for (entry, filled) in self.numbered() {
            let slot = &mut held[filled.slot];
            if *slot != filled.old {
                return Err(Fault::On { entry });
            }
            *slot = filled.new;
        }
        alike(&held, &self.end_values()).map_err(|slot| Fault::End { slot })
    }
}

/// Whether both have the same, or the first slot of which they don't.
fn alike<T: PartialEq>(one: &[T], other: &[T]) -> Result<(), usize> {
    let mut both = one.iter().zip(other);
    both.position(|(one, other)| one != other)
        .map_or(Ok(()), Err)
}

#[cfg(test)]
mod tests;
