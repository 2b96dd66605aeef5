//! What is told of single runs, worked by hand.

mod told_call;

use second_runner::{
    Found, Guarding, Origin, Part, ReadSeen, Role, Seen, Step, StepKind, Stopped, Value, Wanted,
    Why,
};
use sheets::*;
use told_call::tell;

fn is(bytes: Bytes) -> Value {
    let payload = bytes[1..].try_into().expect("eight bytes");
    Value {
        kind: bytes[0],
        payload: u64::from_le_bytes(payload),
    }
}

fn literal_seen(value: Bytes, top: u8) -> Seen {
    Seen {
        value: is(value),
        label: top,
        reads: vec![],
    }
}

/// Slot 0 holds a read view of slot 1, which holds a write view of slot 2. The
/// owners are LEFT, RIGHT and TOP.
fn chained() -> Bytes {
    store(
        &DIAMOND,
        &[
            (LEFT, read_view(1)),
            (RIGHT, write_view(2)),
            (TOP, integer(7)),
        ],
    )
}

/// Reads come in their order, and the label is their owners' meet.
#[test]
fn a_chain_of_reads_is_told_in_its_order() {
    let by_two_reads = assign(reads(2, 0), literal(integer(9)));
    let call = call_block(&chained(), TOP, by_two_reads, 0);
    let (told, steps) = tell(&call);
    assert_eq!((told.answer.number, told.stopped), (0, None));
    let reads = vec![
        ReadSeen {
            slot: 0,
            owner: LEFT,
            value: is(read_view(1)),
        },
        ReadSeen {
            slot: 1,
            owner: RIGHT,
            value: is(write_view(2)),
        },
    ];
    let write = StepKind::Write {
        slot: 2,
        owner: TOP,
        old: is(integer(7)),
        target: Seen {
            value: is(write_view(2)),
            label: BOTTOM,
            reads,
        },
        value: literal_seen(integer(9), TOP),
    };
    let step = Step {
        number: 1,
        block: 0,
        offset: 0,
        branch: TOP,
        what: write,
    };
    assert_eq!(steps, [step]);
}

/// "The left one is evaluated first, then the right."
#[test]
fn operands_are_read_from_the_left() {
    let slots = [3, 5, 7].map(|held| (0, integer(held)));
    let total = sum(difference(slot(2), slot(0)), slot(1));
    let call = call_block(&store(&[1], &slots), 0, set(0, total), 3);
    let (_, steps) = tell(&call);
    let StepKind::Write { value, .. } = &steps[0].what else {
        panic!("{steps:?}");
    };
    let reads: Vec<usize> = value.reads.iter().map(|read| read.slot).collect();
    assert_eq!((value.value, reads), (is(integer(9)), vec![2, 0, 1]));
}

/// A guard on a slot of LEFT's, in an endorsed block with its floor at RIGHT.
#[test]
fn a_label_too_low_is_told_with_its_guard_and_floor() {
    let sheet = store(&DIAMOND, &[(LEFT, truth(false)), (TOP, integer(7))]);
    let guard = slot(0);
    let offset = 1 + guard.len() as u32 + 1;
    let code = if_else(guard, skip(), set_integer(1, 9));
    let (told, _) = tell(&call_floored(&sheet, TOP + 0x80, RIGHT, code, 3));
    let read = ReadSeen {
        slot: 0,
        owner: LEFT,
        value: is(truth(false)),
    };
    let guard = Guarding {
        offset: 0,
        part: Part::IfElse,
        label: LEFT,
        guard: Some(Seen {
            value: is(truth(false)),
            label: LEFT,
            reads: vec![read],
        }),
    };
    let why = Why::ProvenanceTooLow {
        slot: 1,
        owner: TOP,
        target: literal_seen(write_view(1), TOP),
        value: literal_seen(integer(9), TOP),
        branch_judged: true,
        meet: LEFT,
    };
    let expected = Stopped {
        block: 0,
        offset,
        steps: 1,
        region: TOP,
        floor: Some(RIGHT),
        branch: LEFT,
        guards: vec![guard],
        why,
    };
    assert_eq!(told.answer.number, 16);
    assert_eq!(told.stopped, Some(expected));
}

/// After a part the outer branch label is back, and its guard is not around.
#[test]
fn a_part_that_is_left_guards_no_more() {
    let sheet = store(&PAIR, &[(0, truth(true)), (1, integer(7))]);
    let part = if_else(slot(0), set(0, literal(truth(false))), skip());
    let body = sequence(&[part, set(1, literal(truth(true))), set(1, slot(0))]);
    let (told, steps) = tell(&call_block(&sheet, 1, body, 3));
    let branches: Vec<u8> = steps.iter().map(|step| step.branch).collect();
    assert_eq!(branches, [1, 0, 1]);
    let stopped = told.stopped.expect("16");
    assert_eq!((stopped.branch, stopped.guards), (1, vec![]));
}

/// Both operands, with where each came from, and the slots read for them.
#[test]
fn operands_of_the_wrong_kind_are_told_with_where_they_came_from() {
    let sheet = store(&[1], &[(0, truth(true)), (0, integer(2))]);
    let left = equal(slot(1), literal(integer(2)));
    let (told, _) = tell(&call_block(&sheet, 0, set(1, sum(left, slot(0))), 3));
    let read = |slot, value| ReadSeen {
        slot,
        owner: 0,
        value,
    };
    let why = Why::WrongKind {
        role: Role::Value,
        wanted: Wanted::Integers(SUM),
        found: vec![
            Found {
                value: is(truth(true)),
                from: Origin::Operation(EQUAL),
            },
            Found {
                value: is(truth(true)),
                from: Origin::Slot(0),
            },
        ],
        reads: vec![read(1, is(integer(2))), read(0, is(truth(true)))],
    };
    assert_eq!(told.stopped.expect("13").why, why);
}

/// Under rule 1, on the way to the target.
#[test]
fn a_write_view_is_told_with_the_slot_that_it_was_read_from() {
    let by_slot_1 = assign(slot(1), literal(integer(9)));
    let (told, _) = tell(&call_block(&chained(), RIGHT, by_slot_1, 1));
    let why = Why::WriteViewNotAllowed {
        role: Role::Target,
        slot: 2,
        owner: TOP,
        read_from: Some(1),
    };
    assert_eq!(told.stopped.expect("15").why, why);
}
