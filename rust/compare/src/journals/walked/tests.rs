//! A run that finishes, and what can be wrong with what it leaves.

use super::*;
use crate::ample::plain_run;
use crate::code::{programme_sheet, Block};
use crate::expressions::Expression;
use crate::sheets::plain_store;

/// Slot 0 of principal 0, slot 1 of principal 1. Block 0 writes slot 0 twice, block
/// 1 each slot once.
fn run() -> Run {
    let mut store = plain_store(2, 2);
    store.table.owners[1] = 1;
    let set = |slot, integer| Command::set(slot, Expression::literal(Value::Integer(integer)));
    let blocks = [
        Block::plain(0, Command::Sequence(vec![set(0, 5), set(0, 6)])),
        Block::plain(1, Command::Sequence(vec![set(1, 7), set(0, 8)])),
    ];
    plain_run(&store.bytes(), &programme_sheet(&blocks).bytes, 3)
}

/// What is found when the records and the entries are changed so.
fn found(change: impl Fn(&mut [Record], &mut Vec<Entry>)) -> Result<(), Fault> {
    let run = run();
    let seen = run.second();
    let mut records = records_in(seen.output()).expect("a good output");
    let mut entries = seen.journal.filled;
    change(&mut records, &mut entries);
    let output: Vec<u8> = records.into_iter().flat_map(Record::bytes).collect();
    walk(&run, &output, &entries)
}

fn value(integer: i64) -> ValueBytes {
    Value::Integer(integer).bytes()
}

#[test]
fn a_good_journal_is_walked_both_ways() {
    assert_eq!(found(|_, _| ()), Ok(()));
}

#[test]
fn counts_and_entries_have_to_agree() {
    let left_out = found(|_, entries| entries.truncate(3));
    let total = |total, filled| Err(Fault::Total { total, filled });
    assert_eq!(left_out, total(4, 3));
    assert_eq!(found(|records, _| records[0].count += 1), total(5, 4));
    let exchanged = found(|records, _| {
        records[0].count -= 1;
        records[1].count += 1;
    });
    assert_eq!(exchanged, Err(Fault::Count { slot: 0 }));
    let other = found(|_, entries| entries[0].slot = 1);
    assert_eq!(other, Err(Fault::Count { slot: 0 }));
}

#[test]
fn entries_have_to_name_what_is_there() {
    let place = |entry| Err(Fault::Place { entry });
    assert_eq!(found(|_, entries| entries[2].slot = 2), place(2));
    assert_eq!(found(|_, entries| entries[1].offset += 1), place(1));
    assert_eq!(found(|_, entries| entries[3].block = 2), place(3));
    let order = found(|_, entries| entries.swap(1, 3));
    assert_eq!(order, Err(Fault::Order { entry: 3 }));
    // Block 0 and slot 1 are exchanged with block 1 and slot 0.
    let authority = found(|_, entries| {
        let (slot, other) = (entries[1].slot, entries[2].slot);
        (entries[1].slot, entries[2].slot) = (other, slot);
    });
    assert_eq!(authority, Err(Fault::Authority { entry: 1 }));
}

#[test]
fn walking_has_to_come_to_both_ends() {
    let swapped = found(|_, entries| {
        let Entry { old, new, .. } = entries[3];
        (entries[3].old, entries[3].new) = (new, old);
    });
    assert_eq!(swapped, Err(Fault::Back { entry: 3 }));
    let end = found(|records, _| records[1].value = Value::Integer(9));
    assert_eq!(end, Err(Fault::Back { entry: 2 }));
    let opening = found(|_, entries| entries[0].old = value(9));
    assert_eq!(opening, Err(Fault::Opening { slot: 0 }));
    let between = found(|_, entries| entries[1].old = value(9));
    assert_eq!(between, Err(Fault::Back { entry: 0 }));
}

/// Whatever walking back finds, walking on would find too.
#[test]
fn walking_on_finds_the_same() {
    let run = run();
    let seen = run.second();
    let walked = |entries: &[Entry]| {
        let finished = Finished::of(&run, seen.output(), entries).expect("good sheets");
        finished.walk_on()
    };
    let entries = seen.journal.filled.clone();
    assert_eq!(walked(&entries), Ok(()));
    assert_eq!(walked(&entries[1..]), Err(Fault::On { entry: 0 }));
    let last_left_out = &entries[..entries.len() - 1];
    assert_eq!(walked(last_left_out), Err(Fault::End { slot: 0 }));
    let mut swapped = entries.clone();
    swapped.swap(0, 1);
    assert_eq!(walked(&swapped), Err(Fault::On { entry: 0 }));
}

#[test]
fn an_output_of_other_slots_is_told() {
    let run = run();
    let ill_formed = vec![0xFF; 2 * Record::WIDTH];
    assert_eq!(walk(&run, &ill_formed, &[]), Err(Fault::Bytes));
    let too_long = vec![0; 3 * Record::WIDTH];
    assert_eq!(walk(&run, &too_long, &[]), Err(Fault::Bytes));
}
