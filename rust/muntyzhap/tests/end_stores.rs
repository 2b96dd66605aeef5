//! What a finished run leaves in its output, and how it is read.

mod parts;

use muntyzhap::sheet::{end_store, Slot};
use muntyzhap::{run, Rule, Value};
use parts::lent::*;
use parts::*;

fn store() -> Vec<u8> {
    store_of(&MASKS, &slots())
}

#[test]
fn a_finished_run_leaves_its_end_store() {
    let finished = run(&store(), &two_blocks(), Rule::AccessControl, 10);
    let finished = finished.expect("a finished run");
    assert_eq!((finished.blocks, finished.steps), (2, 2));
    let written = (Value::Integer(42), 1);
    assert_eq!(told(&finished.slots), [(LOW, written), (HIGH, written)]);
}

/// Each slot's owner, and its value and count of writes.
fn told(slots: &[Slot]) -> Vec<(u8, (Value, u32))> {
    let slots = slots.iter();
    slots
        .map(|slot| (slot.owner(), (slot.value(), slot.writes())))
        .collect()
}

/// From the sheet to the output, and from a literal over two slots to it.
#[test]
fn every_integer_goes_through_a_run_unchanged() {
    for telling in TELLING {
        let value = [&[Value::INTEGER], telling.to_le_bytes().as_slice()].concat();
        let (opening, copied) = (store_of(&MASKS, &slots_of([telling; 2])), store());
        let (nothing, copying) = (programme_of(&[]), copying(telling));
        for (store, programme, count) in [(opening, nothing, 0), (copied, copying, 1)] {
            let rule = Rule::AccessControl;
            let lent = Lent::to_run(&store, &programme, rule.number(), 2, ROOM);
            assert_eq!(lent.answer.number, 0, "{telling}");
            let bytes = [value.as_slice(), &[count, 0, 0, 0]].concat();
            assert_eq!(lent.out, bytes.repeat(2), "{telling}");
            let finished = run(&store, &programme, rule, 2).expect("a finished run");
            let written = (Value::Integer(telling), count.into());
            assert_eq!(told(&finished.slots), [(LOW, written), (HIGH, written)]);
        }
    }
}

#[test]
fn an_end_store_is_read_only_where_every_length_is_right() {
    let (store, good) = (store(), [0; OUTPUT]);
    assert!(end_store(&store, &good).is_some());
    assert_eq!(end_store(&store, &good[1..]), None);
    assert_eq!(end_store(&store, &[0; OUTPUT + 1]), None);
    assert_eq!(end_store(&store[..12], &good), None, "an owner is missing");
    assert_eq!(end_store(&store[..2], &[]), None, "a size is missing");
    let ill_formed = [9; OUTPUT];
    assert_eq!(end_store(&store, &ill_formed), None);
    let nine_each = vec![0; 2 * Value::BYTES];
    assert_eq!(end_store(&store, &nine_each), None, "no counts");
    let mut unknown_owner = store.clone();
    unknown_owner[3 + 4 * 2] = 32;
    assert_eq!(
        end_store(&unknown_owner, &good),
        None,
        "no principal's number"
    );
}

/// "output gains 4 bytes of it after each value", the lowest byte first.
#[test]
fn a_count_of_writes_is_read_after_each_value() {
    let [low, high] = [-1, 1].map(|integer| Value::Integer(integer).to_bytes());
    let out = [low.as_slice(), &[1, 2, 3, 4], &high, &[0, 0, 0, 0x80]];
    let end = end_store(&store(), &out.concat()).expect("an end store");
    let expected = [
        (LOW, (Value::Integer(-1), 0x0403_0201)),
        (HIGH, (Value::Integer(1), 1 << 31)),
    ];
    assert_eq!(told(&end), expected);
}

/// "a count of its writes, 0 at opening": a sheet has none, so that an end store
/// can be opened again.
#[test]
fn an_end_store_can_be_the_next_opening_store() {
    let ran = |store: &[u8]| {
        let finished = run(store, &two_blocks(), Rule::AccessControl, 2);
        finished.expect("a finished run").slots
    };
    let first = ran(&store());
    assert_eq!(slots().map(|slot| slot.writes()), [0, 0]);
    assert_eq!(told(&ran(&store_of(&MASKS, &first))), told(&first));
}
