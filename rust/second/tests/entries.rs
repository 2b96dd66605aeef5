//! The writing journal (document 02, N7), at random: entries, counts and values
//! belong together in every run that finishes, and a shorter journal is full
//! just where the next entry would have been filled.

mod play;
mod random;

use std::collections::BTreeSet;

use play::*;
use random::flows::flowing_parts;
use random::views::views_go_round;
use random::*;
use second_runner::{Entry, Value};
use sheets::*;

/// How many programmes of each kind are played.
const PROGRAMMES: u64 = 10_000;

/// A run that finished with ample entries.
struct Finished {
    parts: Parts,
    call: Call,
    played: Played,
    end: Vec<EndSlot>,
}

impl Finished {
    fn entries(&self) -> &[Entry] {
        self.played.entries()
    }

    fn opening(&self) -> Vec<Bytes> {
        let values = self.parts.slots.iter().map(|(_, value)| value.clone());
        values.collect()
    }

    fn end_values(&self) -> Vec<Bytes> {
        self.end.iter().map(|slot| slot.value.clone()).collect()
    }
}

/// Those of all programmes, under every rule.
fn finished_runs() -> impl Iterator<Item = Finished> {
    let kinds = [good_parts, flowing_parts, views_go_round];
    let all = (0..PROGRAMMES).flat_map(move |seed| kinds.map(|parts| parts(seed)));
    all.zip(RULES.into_iter().cycle())
        .filter_map(|(mut parts, rule)| {
            parts.rule = rule;
            parts.journal = AMPLE_ENTRIES;
            let call = parts.call();
            let played = call.play();
            (played.answer.number == 0).then(|| Finished {
                end: end_slots(&played.output),
                parts,
                call,
                played,
            })
        })
}

/// The nine bytes of an entry's value.
fn value_bytes(value: Value) -> Bytes {
    join(&[&[value.kind], &value.payload.to_le_bytes()])
}

/// How many runs had so many writes: none, one, or more; and more to one slot.
#[derive(Debug, Default)]
struct Writes {
    none: u32,
    one: u32,
    more: u32,
    again: u32,
}

impl Writes {
    fn count(&mut self, entries: &[Entry]) {
        match entries.len() {
            0 => self.none += 1,
            1 => self.one += 1,
            _ => self.more += 1,
        }
        let slots: BTreeSet<usize> = entries.iter().map(|entry| entry.slot).collect();
        self.again += u32::from(slots.len() < entries.len());
    }

    #[track_caller]
    fn assert_enough(&self) {
        let counts = [self.none, self.one, self.more, self.again];
        assert!(counts.iter().all(|count| *count > 500), "{self:?}");
    }
}

/// "That total equals the entries filled, and for each slot the count equals the
/// entries that name it."
#[test]
fn counts_are_those_of_the_entries() {
    let mut writes = Writes::default();
    for run in finished_runs() {
        let total: u32 = run.end.iter().map(|slot| slot.writes).sum();
        assert_eq!(total as usize, run.entries().len());
        assert!(total <= run.played.answer.steps);
        for (number, slot) in run.end.iter().enumerate() {
            let naming = run.entries().iter().filter(|entry| entry.slot == number);
            assert_eq!(slot.writes as usize, naming.count());
        }
        let beyond = &run.played.journal[run.entries().len()..];
        assert!(beyond.iter().all(|entry| *entry == LENT_ENTRY));
        writes.count(run.entries());
    }
    writes.assert_enough();
}

/// "Walking the entries backwards restores the opening values."
#[test]
fn walking_backwards_restores_the_opening_values() {
    let mut writes = Writes::default();
    for run in finished_runs() {
        let mut values = run.end_values();
        for entry in run.entries().iter().rev() {
            assert_eq!(values[entry.slot], value_bytes(entry.new));
            values[entry.slot] = value_bytes(entry.old);
        }
        assert_eq!(values, run.opening());
        writes.count(run.entries());
    }
    writes.assert_enough();
}

/// Walking forwards gives the end store.
#[test]
fn walking_forwards_gives_the_end_values() {
    let mut writes = Writes::default();
    for run in finished_runs() {
        let mut values = run.opening();
        for entry in run.entries() {
            assert_eq!(values[entry.slot], value_bytes(entry.old));
            values[entry.slot] = value_bytes(entry.new);
        }
        assert_eq!(values, run.end_values());
        writes.count(run.entries());
    }
    writes.assert_enough();
}

/// Each entry's place is that of an assignment, in a block whose region stands
/// at or above the slot's owner. Blocks come in their order.
#[test]
fn entries_are_of_assignments_that_their_blocks_may_make() {
    let mut by_block = [0; 3];
    for run in finished_runs() {
        let Parts {
            masks,
            slots,
            blocks,
            ..
        } = &run.parts;
        for entry in run.entries() {
            let block = &blocks[entry.block];
            assert_eq!(block.2[entry.offset], set_integer(0, 0)[0]);
            assert!(stands_below(masks, slots[entry.slot].0, region(block)));
            by_block[entry.block] += 1;
        }
        assert!(run.entries().is_sorted_by_key(|entry| entry.block));
    }
    assert!(by_block.iter().all(|count| *count > 500), "{by_block:?}");
}

/// With just as many entries as writes a run ends the same; with fewer, it is
/// refused by 18 at the assignment whose entry is missing.
#[test]
fn a_shorter_journal_is_full_where_the_next_entry_would_be() {
    let mut writes = Writes::default();
    for run in finished_runs() {
        let exactly = run.call.journal(run.entries().len()).play();
        assert_eq!(exactly.answer, run.played.answer);
        assert_eq!(exactly.output, run.played.output);
        assert_eq!(exactly.journal, run.entries());
        let mut steps = 0;
        for (length, missing) in run.entries().iter().enumerate() {
            let full = run.call.journal(length).play();
            let answer = full.answer;
            let place = (answer.block as usize, answer.offset as usize);
            assert_eq!(
                (answer.number, place),
                (18, (missing.block, missing.offset))
            );
            assert!(steps <= answer.steps && answer.steps < run.played.answer.steps);
            full.assert_untouched();
            steps = answer.steps + 1;
        }
        writes.count(run.entries());
    }
    writes.assert_enough();
}

/// An assignment is a step, so with as many entries as steps in the budget no
/// run is refused by 18, and none alters with more.
#[test]
fn as_many_entries_as_the_budget_has_steps_are_enough() {
    let mut just_enough = 0;
    for seed in 0..PROGRAMMES {
        for parts in [good_parts(seed), flowing_parts(seed)] {
            let call = parts.call();
            let played = call.journal(call.budget as usize).play();
            let ample = call.journal(AMPLE_ENTRIES).play();
            assert_eq!(played.answer, ample.answer);
            assert_eq!(played.output, ample.output);
            assert_eq!(played.entries(), ample.entries());
            let writes = played.entries().len();
            just_enough += u32::from(writes > 0 && writes == played.journal.len());
        }
    }
    assert!(just_enough > 100, "{just_enough}");
}
