//! What a run wrote, in words.

mod parts;

use muntyzhap::code::{assign, literal, read, sequence};
use muntyzhap::{run, Finished, Report, Rule, Value};
use parts::*;

/// Three blocks: the low one writes slot 0, the high ones slot 1 and both.
fn finished() -> Finished {
    let seen = |slot| assign(slot, literal(Value::ReadView(1)));
    let both = built(sequence(&[seen(0), assign(1, read(0))]));
    let programme = programme_of(&[
        block(LOW, assign(0, integer(-42))),
        block(HIGH, assign(1, truth(true))),
        block(HIGH, both),
    ]);
    let store = store_of(&MASKS, &slots());
    run(&store, &programme, Rule::AccessControl, 10).expect("authority enough")
}

#[test]
fn each_write_is_told_in_order() {
    let words = "\
entry 0: block 0 at offset 0 wrote integer -42 to slot 0 over integer 5
entry 1: block 1 at offset 0 wrote truth value true to slot 1 over integer 7
entry 2: block 2 at offset 2 wrote read view of slot 1 to slot 0 over integer -42
entry 3: block 2 at offset 23 wrote read view of slot 1 to slot 1 over truth value true";
    assert_eq!(finished().report().to_string(), words);
}

#[test]
fn the_writes_of_a_slot_are_told_together() {
    let words = "\
slot 0, 2 writes
  entry 0: block 0 at offset 0 wrote integer -42 over integer 5
  entry 2: block 2 at offset 2 wrote read view of slot 1 over integer -42
slot 1, 2 writes
  entry 1: block 1 at offset 0 wrote truth value true over integer 7
  entry 3: block 2 at offset 23 wrote read view of slot 1 over truth value true";
    assert_eq!(finished().report().by_slot().to_string(), words);
}

#[test]
fn the_writes_of_a_block_are_told_together() {
    let words = "\
block 0, 1 write
  entry 0: at offset 0 wrote integer -42 to slot 0 over integer 5
block 1, 1 write
  entry 1: at offset 0 wrote truth value true to slot 1 over integer 7
block 2, 2 writes
  entry 2: at offset 2 wrote read view of slot 1 to slot 0 over integer -42
  entry 3: at offset 23 wrote read view of slot 1 to slot 1 over truth value true";
    assert_eq!(finished().report().by_block().to_string(), words);
}

/// Slots and blocks that wrote or were written in no entry are left out.
#[test]
fn of_some_entries_only_these_are_told() {
    let finished = finished();
    let only = Report::of(&finished.journal[1..2]);
    let words =
        "slot 1, 1 write\n  entry 0: block 1 at offset 0 wrote truth value true over integer 7";
    assert_eq!(only.by_slot().to_string(), words);
    let words =
        "block 1, 1 write\n  entry 0: at offset 0 wrote truth value true to slot 1 over integer 7";
    assert_eq!(only.by_block().to_string(), words);
}

#[test]
fn no_writes_are_told_of() {
    let nothing = run(
        &store_of(&MASKS, &slots()),
        &programme_of(&[]),
        Rule::Default,
        0,
    );
    let nothing = nothing.expect("no blocks");
    let report = nothing.report();
    for report in [report, report.by_slot(), report.by_block()] {
        assert_eq!(report.to_string(), "no writes");
    }
}
