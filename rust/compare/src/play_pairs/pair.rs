//! A pair of runs, played, and what is seen of how it ends.

use std::fmt::{self, Display, Formatter};

use super::counts::{Counts, Rules};
use super::endorsed::{self, Endorsed};
use super::tainted::{self, Tainted};
use super::traces::Trace;
use super::Stopped;
use crate::calls::{Call, Run, Seen};
use crate::code::{programme_sheet, Block};
use crate::journals::Entry;
use crate::outputs::{output_length, slots_of};
use crate::sheets::{Store, Table};
use crate::values::Value;

/// Two runs under full provenance that leave a protected slot differently.
#[derive(Debug, Clone)]
pub struct Leak {
    adversary: u8,
    trace: Trace,
    /// Both runs, or the stretches of one and then of the other.
    runs: Vec<(Call, Seen)>,
}

impl Display for Leak {
    fn fmt(&self, out: &mut Formatter) -> fmt::Result {
        let (adversary, trace) = (self.adversary, self.trace);
        writeln!(out, "adversary {adversary}: {trace}")?;
        for (call, seen) in &self.runs {
            write!(out, "{call}")?;
            writeln!(out, "proved runner: {seen}")?;
        }
        Ok(())
    }
}

/// One pair: two stores and two replacements of one programme.
#[derive(Clone)]
pub(super) struct Pair {
    pub adversary: u8,
    pub stores: [Store; 2],
    pub replacements: [Vec<Block>; 2],
    pub budgets: [u32; 2],
    pub journals: [usize; 2],
}

impl Pair {
    /// Both runs. If they finish and leave a protected slot differently, that is
    /// a leak.
    pub fn play(&self, rules: Rules, counts: &mut Counts) -> Result<Option<Leak>, Stopped> {
        let calls = self.calls(rules);
        let seen = |call: &Call| call.compare().map_err(Stopped::Differs);
        let ends = [seen(&calls[0])?, seen(&calls[1])?];
        if ends.iter().any(|end| end.answer.number != 0) {
            return Ok(None);
        }
        let (tainted, endorsed) = self.watched(&ends);
        self.count_end(&ends, counts);
        counts.operands.count(tainted);
        counts.floors.count(endorsed);
        let Some(trace) = self.trace(&ends) else {
            return Ok(None);
        };
        counts.leaked.count(trace);
        counts.leaked_with_operation += u64::from(tainted.any());
        let runs = calls.into_iter().zip(ends);
        Ok(Some(self.leak(trace, runs.collect())))
    }

    pub fn leak(&self, trace: Trace, runs: Vec<(Call, Seen)>) -> Leak {
        Leak {
            adversary: self.adversary,
            trace,
            runs,
        }
    }

    fn count_end(&self, ends: &[Seen; 2], counts: &mut Counts) {
        let lists = [0, 1].map(|side| self.protected_entries(&ends[side]));
        counts.finished += 1;
        counts.told_apart += u64::from(ends[0].output() != ends[1].output());
        counts.by_high_bytes += u64::from(told_apart_by_high_bytes(ends));
        counts.by_counts += u64::from(told_apart_by_counts(ends));
        counts.changed += u64::from(self.changed_protected(ends));
        counts.listed += u64::from(lists.iter().all(|list| list.len() > 1));
    }

    /// Both runs finish and leave a protected slot differently, or it stops.
    pub fn play_back(&self, rules: Rules) -> Result<(), Stopped> {
        match self.play(rules, &mut Counts::default())? {
            Some(_) => Ok(()),
            None => Err(Stopped::Hides(Box::new(self.calls(rules)))),
        }
    }

    /// What is met in these runs, which finish.
    fn watched(&self, ends: &[Seen; 2]) -> (Tainted, Endorsed) {
        let mut tainted = tainted::Watcher::new(self.adversary);
        let mut endorsed = endorsed::Watcher::new(self.adversary);
        for (side, end) in ends.iter().enumerate() {
            let mut stage = self.stores[side].stage();
            let watch = &mut (&mut tainted, &mut endorsed);
            stage.follow(&self.replacements[side], end.answer.steps, watch);
        }
        (tainted.found, endorsed.found)
    }

    fn calls(&self, rules: Rules) -> [Call; 2] {
        [0, 1].map(|side| {
            let store = &self.stores[side];
            Call::Run(Run {
                store: store.bytes(),
                programme: programme_sheet(&self.replacements[side]).bytes,
                rule: rules.0[side],
                budget: self.budgets[side],
                output_length: output_length(store.table.slots()),
                journal_length: self.journals[side],
            })
        })
    }

    /// Whether some protected slot opens differently by its high bytes alone.
    pub fn opens_apart_by_high_bytes(&self) -> bool {
        let at = |side: usize, slot: usize| self.stores[side].values[slot].bytes();
        self.protected()
            .any(|slot| differ_by_high_bytes(&at(0, slot), &at(1, slot)))
    }

    pub fn protected(&self) -> impl Iterator<Item = usize> + '_ {
        let slots = 0..self.stores[0].table.slots();
        slots.filter(|slot| self.is_protected(*slot))
    }

    fn is_protected(&self, slot: usize) -> bool {
        is_protected(&self.stores[0].table, slot, self.adversary)
    }

    /// The entries that name protected slots.
    fn protected_entries<'a>(&self, end: &'a Seen) -> Vec<&'a Entry> {
        let entries = end.journal.filled.iter();
        let named = entries.filter(|entry| self.is_protected(entry.slot));
        named.collect()
    }

    /// Where protected slots are left differently, if they are: in the output, by
    /// values and then by counts, or in the journal.
    pub fn trace(&self, ends: &[Seen; 2]) -> Option<Trace> {
        let at = |side: usize, slot| slot_bytes(ends[side].output(), slot);
        let value = |side: usize, slot| value_of(at(side, slot));
        let mut protected = self.protected();
        if let Some(slot) = protected.find(|slot| value(0, *slot) != value(1, *slot)) {
            return Some(Trace::Value { slot });
        }
        let mut protected = self.protected();
        if let Some(slot) = protected.find(|slot| at(0, *slot) != at(1, *slot)) {
            return Some(Trace::Count { slot });
        }
        let [one, other] = ends.each_ref().map(|end| self.protected_entries(end));
        (one != other).then_some(Trace::Entries)
    }

    /// Whether a protected slot doesn't end with the value with which it began.
    pub fn changed_protected(&self, ends: &[Seen; 2]) -> bool {
        let sides = self.stores.iter().zip(ends);
        sides.into_iter().any(|(store, end)| {
            self.protected().any(|slot| {
                let opening = store.values[slot].bytes();
                opening != value_of(slot_bytes(end.output(), slot))
            })
        })
    }
}

fn slot_bytes(output: &[u8], slot: usize) -> &[u8] {
    &output[output_length(slot)..output_length(slot + 1)]
}

/// The value in a slot's bytes.
fn value_of(slot: &[u8]) -> &[u8] {
    &slot[..Value::WIDTH]
}

/// The values in the outputs of both runs, slot by slot.
fn values_of(ends: &[Seen; 2]) -> impl Iterator<Item = (&[u8], &[u8])> {
    let [one, other] = ends.each_ref().map(|end| slots_of(end.output()));
    one.map(value_of).zip(other.map(value_of))
}

/// Whether some slot ends differently by its high bytes alone.
fn told_apart_by_high_bytes(ends: &[Seen; 2]) -> bool {
    values_of(ends).any(|(one, other)| differ_by_high_bytes(one, other))
}

/// Whether slots end differently by their counts alone.
fn told_apart_by_counts(ends: &[Seen; 2]) -> bool {
    let same_values = values_of(ends).all(|(one, other)| one == other);
    same_values && ends[0].output() != ends[1].output()
}

/// Whether two values, in bytes, are of one kind and one number but for the high
/// bytes.
fn differ_by_high_bytes(one: &[u8], other: &[u8]) -> bool {
    one != other && one[..1 + Value::LOW] == other[..1 + Value::LOW]
}

pub(super) fn is_protected(table: &Table, slot: usize, adversary: u8) -> bool {
    !table.lattice.at_or_below(table.owners[slot], adversary)
}

#[cfg(test)]
mod tests {
    use super::*;
    use crate::random::Random;

    #[test]
    fn stores_that_end_alike_are_not_shown() {
        let mut pair = (0..)
            .find_map(|case| Pair::of_unlike_stores(&mut Random::of_case(16, case)))
            .expect("stores that differ");
        for rules in Rules::isolating() {
            assert!(pair.play_back(rules).is_ok());
        }
        pair.stores[1] = pair.stores[0].clone();
        for rules in Rules::isolating() {
            assert!(matches!(pair.play_back(rules), Err(Stopped::Hides(_))));
        }
    }
}
