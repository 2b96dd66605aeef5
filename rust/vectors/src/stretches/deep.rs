//! The longest paths: 31 entries, to a command that is nested 32 deep.

use std::slice;

use super::trace::{stop, Trace};
use super::HEAD;
use crate::case::Case;
use crate::depth::nested;
use sheets::*;

/// The commands around the innermost.
const AROUND: usize = 31;

pub fn cases() -> Vec<Case> {
    let rules = [0, 3].into_iter();
    let cases = rules.flat_map(|rule| {
        let traces = [
            in_sequences().every_cut(rule),
            in_parts(true).cuts(&[0, 1, 30, 31], rule),
            in_parts(false).cuts(&[0, 1, 30, 31], rule),
            in_bodies().cuts(&[0, 1, 30, 31, 32, 33, 61, 62], rule),
            down_a_chain().cuts(&[0, 1, 15, 30, 31], rule),
        ];
        traces.into_iter().flatten()
    });
    cases.collect()
}

/// Each after a skip: a byte, a count and the skip stand before it.
fn in_sequences() -> Trace {
    let code = nested(1 + AROUND, set_integer(0, 9), |inner| {
        sequence(&[skip(), inner])
    });
    let opening = [integer(5), integer(7)].map(kept);
    Trace {
        name: "31 sequences",
        store: example_store(),
        blocks: vec![(0, code)],
        stops: vec![stop(0, &[(1, 1); AROUND], 3 * AROUND, &opening)],
        end: vec![once(integer(9)), kept(integer(7))],
    }
}

/// On the guard of a literal: the label inside is the top's all the way.
fn in_parts(holds: bool) -> Trace {
    let (name, child, before) = match holds {
        true => ("31 then-parts", THEN_PART, 1 + LITERAL),
        false => ("31 else-parts", ELSE_PART, 1 + LITERAL + 1),
    };
    let around = |inner| match holds {
        true => if_else(literal(truth(true)), inner, skip()),
        false => if_else(literal(truth(false)), skip(), inner),
    };
    let code = (0..AROUND).fold(set_integer(0, 9), |inner, _| around(inner));
    let opening = [integer(5), integer(7)].map(kept);
    let stops = (0..=AROUND).map(|steps| {
        let path = vec![(child, 1); steps];
        stop(0, &path, before * steps, &opening)
    });
    Trace {
        name,
        store: example_store(),
        blocks: vec![(0, code)],
        stops: stops.collect(),
        end: vec![once(integer(9)), kept(integer(7))],
    }
}

/// On a low guard, which the innermost command turns off: then each while is judged
/// again, from the inside out.
fn in_bodies() -> Trace {
    let off = set(0, literal(truth(false)));
    let code = nested(1 + AROUND, off, |inner| while_do(slot(0), inner));
    let at = |around: usize, held: &EndSlot| {
        let path = vec![(BODY, 0); around];
        stop(0, &path, HEAD * around, slice::from_ref(held))
    };
    let (on, off) = (kept(truth(true)), once(truth(false)));
    let inwards = (0..=AROUND).map(|around| at(around, &on));
    let outwards = (0..AROUND).rev().map(|around| at(around, &off));
    Trace {
        name: "31 bodies",
        store: store(&PAIR, &[(0, truth(true))]),
        blocks: vec![(1, code)],
        stops: inwards.chain(outwards).collect(),
        end: vec![off.clone()],
    }
}

/// 32 principals in a chain, each with a slot: each guard's label is one lower, down
/// to the bottom's slot that is written.
fn down_a_chain() -> Trace {
    let write = set_integer(0, 9);
    let code = (1..=AROUND as i64).fold(write, |inner, owner| if_else(slot(owner), inner, skip()));
    let slots: Vec<(u8, Bytes)> = (0..32)
        .map(|owner| (owner, if owner == 0 { integer(5) } else { truth(true) }))
        .collect();
    let opening: Vec<EndSlot> = slots.iter().map(|(_, value)| kept(value.clone())).collect();
    let mut end = opening.clone();
    end[0] = once(integer(9));
    let stops = (0..=AROUND).map(|steps| {
        let path: Vec<Taken> = (0..steps as u8).map(|n| (THEN_PART, 31 - n)).collect();
        stop(0, &path, HEAD * steps, &opening)
    });
    Trace {
        name: "labels down a chain",
        store: store(&chain(32), &slots),
        blocks: vec![(31, code)],
        stops: stops.collect(),
        end,
    }
}

#[cfg(test)]
mod tests {
    use super::*;
    use crate::stretches::SET;

    /// The 32nd command of a chain of ifs stands behind 31 guards.
    #[test]
    fn a_path_of_31_entries_is_the_longest() {
        let code = &in_bodies().blocks[0].1;
        assert_eq!(code.len(), HEAD * AROUND + SET);
        let paths = down_a_chain().stops;
        assert_eq!(paths[AROUND].path[AROUND - 1], (THEN_PART, 1));
    }
}
