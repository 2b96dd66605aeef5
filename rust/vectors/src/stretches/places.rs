//! Where a run pauses: in every kind of command, and in the blocks.

use super::trace::{stop, Trace};
use super::{HEAD, SET};
use crate::case::Case;
use sheets::*;

pub fn cases() -> Vec<Case> {
    let under_each = [writes(), choice(true), choice(false), rounds()];
    let under_full = [crossed(), inner_rounds(), blocks(), last_block(), many()];
    let each = RULES
        .into_iter()
        .flat_map(|rule| under_each.iter().flat_map(move |it| it.every_cut(rule)));
    let full = under_full.iter().flat_map(|it| it.every_cut(3));
    let mut cases: Vec<Case> = each.chain(full).collect();
    cases.extend(long_sequence().cuts(&[0, 1, 127, 128, 253, 254], 3));
    cases.extend(nothing_to_do());
    cases
}

/// Assignments in a sequence, with a skip between. The top is 1.
pub fn writes() -> Trace {
    let first = 2;
    let second = first + SET + 1;
    let slots = |low| [low, kept(integer(7))];
    let commands = [
        set_integer(0, 1),
        skip(),
        set_integer(0, 2),
        set(0, slot(0)),
    ];
    Trace {
        name: "writes in a sequence",
        store: example_store(),
        blocks: vec![(0, sequence(&commands))],
        stops: vec![
            stop(0, &[(0, 1)], first, &slots(kept(integer(5)))),
            stop(0, &[(2, 1)], second, &slots(once(integer(1)))),
            stop(0, &[(3, 1)], second + SET, &slots(written(2, integer(2)))),
        ],
        end: slots(written(3, integer(2))).into(),
    }
}

/// Both slots are principal 0's: inside the parts the label is 0.
fn choice(flag: bool) -> Trace {
    let code = if_else(slot(0), set_integer(1, 41), set_integer(1, 42));
    let (name, child, offset, value) = match flag {
        true => ("a then-part", THEN_PART, HEAD, 41),
        false => ("an else-part", ELSE_PART, HEAD + SET, 42),
    };
    let opening = [kept(truth(flag)), kept(integer(7))];
    Trace {
        name,
        store: store(&PAIR, &[(0, truth(flag)), (0, integer(7))]),
        blocks: vec![(0, code)],
        stops: vec![
            stop(0, &[], 0, &opening),
            stop(0, &[(child, 0)], offset, &opening),
        ],
        end: vec![kept(truth(flag)), once(integer(value))],
    }
}

/// Two rounds. A while that is to be judged again has no entry of its own.
pub fn rounds() -> Trace {
    let guard = less_than(slot(0), literal(integer(2)));
    let body = 1 + guard.len();
    let add = set(0, sum(slot(0), literal(integer(1))));
    let held = [kept(integer(0)), once(integer(1)), written(2, integer(2))];
    let held = held.map(|slot| [slot]);
    Trace {
        name: "rounds of a while",
        store: store(&PAIR, &[(0, integer(0))]),
        blocks: vec![(0, while_do(guard, add))],
        stops: vec![
            stop(0, &[], 0, &held[0]),
            stop(0, &[(BODY, 0)], body, &held[0]),
            stop(0, &[], 0, &held[1]),
            stop(0, &[(BODY, 0)], body, &held[1]),
            stop(0, &[], 0, &held[2]),
        ],
        end: held[2].to_vec(),
    }
}

/// In an if on right's in an if on left's: the label inside is the bottom, and
/// after them the top is back.
fn crossed() -> Trace {
    let slots = [
        (LEFT, truth(true)),
        (RIGHT, truth(true)),
        (BOTTOM, integer(0)),
        (TOP, integer(0)),
    ];
    let writes = sequence(&[set_integer(2, 8), set_integer(2, 9)]);
    let inner = if_else(slot(1), writes, skip());
    let outer = if_else(slot(0), inner, skip());
    let code = sequence(&[skip(), outer, set_integer(3, 5)]);
    let held = |bottom, top| [kept(truth(true)), kept(truth(true)), bottom, top];
    let opening = held(kept(integer(0)), kept(integer(0)));
    let outer_at = 2 + 1;
    let inner_at = outer_at + HEAD;
    let first = inner_at + HEAD + 2;
    let to_writes = [(1, TOP), (THEN_PART, LEFT), (THEN_PART, BOTTOM)];
    let to_write = |child| [&to_writes[..], &[(child, BOTTOM)]].concat();
    Trace {
        name: "an if in an if",
        store: store(&DIAMOND, &slots),
        blocks: vec![(TOP, code)],
        stops: vec![
            stop(0, &to_writes[..1], outer_at, &opening),
            stop(0, &to_writes[..2], inner_at, &opening),
            stop(0, &to_write(0), first, &opening),
            stop(
                0,
                &to_write(1),
                first + SET,
                &held(once(integer(8)), kept(integer(0))),
            ),
            stop(
                0,
                &[(2, TOP)],
                first + 2 * SET + 2,
                &held(written(2, integer(9)), kept(integer(0))),
            ),
        ],
        end: held(written(2, integer(9)), once(integer(5))).into(),
    }
}

/// A low while in a middle one, three in a chain; the top is 2.
fn inner_rounds() -> Trace {
    let lower = |number| set(number, literal(truth(false)));
    let inner = while_do(slot(0), lower(0));
    let code = while_do(slot(1), sequence(&[lower(1), inner]));
    let held = |low, middle| [low, middle];
    let (on, off) = (kept(truth(true)), once(truth(false)));
    let first = HEAD + 2;
    let inner_at = first + SET;
    let [all, one, none] = [
        held(on.clone(), on.clone()),
        held(on, off.clone()),
        held(off.clone(), off),
    ];
    let to_inner = [(BODY, 1), (1, 1)];
    let in_inner = [(BODY, 1), (1, 1), (BODY, 0)];
    Trace {
        name: "a while in a while",
        store: store(&chain(3), &[(0, truth(true)), (1, truth(true))]),
        blocks: vec![(2, code)],
        stops: vec![
            stop(0, &[], 0, &all),
            stop(0, &[(BODY, 1), (0, 1)], first, &all),
            stop(0, &to_inner, inner_at, &one),
            stop(0, &in_inner, inner_at + HEAD, &one),
            stop(0, &to_inner, inner_at, &none),
            stop(0, &[], 0, &none),
        ],
        end: none.into(),
    }
}

/// Where a block is done, the next one's command that has a step is next.
fn blocks() -> Trace {
    let skips = sequence(&[skip(), skip()]);
    Trace {
        name: "blocks",
        store: example_store(),
        blocks: vec![
            (0, skip()),
            (0, set_integer(0, 42)),
            (1, skips),
            (1, set_integer(1, 9)),
            (0, skip()),
        ],
        stops: vec![
            stop(1, &[], 0, &[kept(integer(5)), kept(integer(7))]),
            stop(3, &[], 0, &[once(integer(42)), kept(integer(7))]),
        ],
        end: vec![once(integer(42)), once(integer(9))],
    }
}

/// The 64th.
fn last_block() -> Trace {
    let mut blocks = vec![(0, skip()); 63];
    blocks.push((0, sequence(&[set_integer(0, 1), set_integer(0, 2)])));
    let slots = |low| [low, kept(integer(7))];
    Trace {
        name: "the last of 64 blocks",
        store: example_store(),
        blocks,
        stops: vec![
            stop(63, &[(0, 1)], 2, &slots(kept(integer(5)))),
            stop(63, &[(1, 1)], 2 + SET, &slots(once(integer(1)))),
        ],
        end: slots(written(2, integer(2))).into(),
    }
}

/// All slots there can be, with a value of each kind; the last is written.
fn many() -> Trace {
    let values = [integer(-1), truth(true), read_view(255), write_view(254)];
    let mut slots: Vec<Bytes> = values.iter().cycle().take(256).cloned().collect();
    let opening: Vec<EndSlot> = slots.iter().cloned().map(kept).collect();
    let owned: Vec<(u8, Bytes)> = slots.drain(..).map(|value| (0, value)).collect();
    let mut end = opening.clone();
    end[255] = once(integer(LEAST));
    Trace {
        name: "256 slots",
        store: store(&[1], &owned),
        blocks: vec![(0, set_integer(255, LEAST))],
        stops: vec![stop(0, &[], 0, &opening)],
        end,
    }
}

/// The children of a sequence are counted up to 254.
fn long_sequence() -> Trace {
    let commands: Vec<Bytes> = (0..255).map(|each| set_integer(0, each)).collect();
    let held = |steps: u32| match steps {
        0 => kept(integer(-1)),
        _ => written(steps, integer(i64::from(steps) - 1)),
    };
    let stops = (0..255).map(|steps: u8| {
        let offset = 2 + SET * usize::from(steps);
        stop(0, &[(steps, 0)], offset, &[held(u32::from(steps))])
    });
    Trace {
        name: "255 commands",
        store: store(&[1], &[(0, integer(-1))]),
        blocks: vec![(0, sequence(&commands))],
        stops: stops.collect(),
        end: vec![held(255)],
    }
}

/// Without a step a run finishes whatever its budget, and leaves the pause buffer as
/// it was.
fn nothing_to_do() -> Vec<Case> {
    let none = |name, store, blocks| Trace {
        name,
        store,
        blocks,
        stops: vec![],
        end: vec![],
    };
    let empty = none("no blocks and no slots", store(&[1], &[]), vec![]);
    let skips = none("skips and no slots", store(&[1], &[]), vec![(0, skip()); 3]);
    let starts = [0, AMPLE].map(|budget| [empty.start(budget, 3), skips.start(budget, 0)]);
    starts.into_iter().flatten().collect()
}
