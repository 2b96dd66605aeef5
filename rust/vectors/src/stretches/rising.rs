//! A while whose guard's label is low in one round and high in the next: what was
//! inside the first is not left behind in the second.

use super::trace::{stop, Trace};
use super::SET;
use crate::case::{case, Case};
use sheets::*;

pub fn cases() -> Vec<Case> {
    let trace = rising();
    let mut cases: Vec<Case> = [0, 1, 2]
        .into_iter()
        .flat_map(|rule| {
            let stretches = trace.every_stretch(rule);
            trace.every_cut(rule).into_iter().chain(stretches)
        })
        .collect();
    cases.extend(under_full_provenance(&trace));
    cases
}

const BACK: &str =
    "after the part, or after each round before judging again, the outer one is back";

/// Where the body's commands stand: its sequence has a byte and a count.
const FIRST: usize = 1 + (2 + LITERAL) + 2;
const SECOND: usize = FIRST + SET + 1;
const THIRD: usize = SECOND + SET;

/// Slot 0 is low, the others are high. The guard reads what slot 1 shows: slot 0, and
/// after a round slot 2. The third round is not run.
fn rising() -> Trace {
    let body = sequence(&[
        set(2, slot(3)),
        set(3, literal(truth(false))),
        set(1, literal(read_view(2))),
    ]);
    let slots = [
        (0, truth(true)),
        (1, read_view(0)),
        (1, truth(true)),
        (1, truth(true)),
    ];
    let held = |view, two, three| [kept(truth(true)), view, two, three];
    let shows_low = || kept(read_view(0));
    let (on, off) = (|| once(truth(true)), |writes| written(writes, truth(false)));
    let stands = [
        held(shows_low(), kept(truth(true)), kept(truth(true))),
        held(shows_low(), on(), kept(truth(true))),
        held(shows_low(), on(), off(1)),
        held(once(read_view(2)), on(), off(1)),
        held(once(read_view(2)), off(2), off(1)),
        held(once(read_view(2)), off(2), off(2)),
        held(written(2, read_view(2)), off(2), off(2)),
    ];
    let inside = |label: u8, child: u8| [(BODY, label), (child, label)];
    Trace {
        name: "a label that rises",
        store: store(&PAIR, &slots),
        blocks: vec![(1, while_do(reads(2, 1), body))],
        stops: vec![
            stop(0, &[], 0, &stands[0]),
            stop(0, &inside(0, 0), FIRST, &stands[0]),
            stop(0, &inside(0, 1), SECOND, &stands[1]),
            stop(0, &inside(0, 2), THIRD, &stands[2]),
            stop(0, &[], 0, &stands[3]),
            stop(0, &inside(1, 0), FIRST, &stands[3]),
            stop(0, &inside(1, 1), SECOND, &stands[4]),
            stop(0, &inside(1, 2), THIRD, &stands[5]),
            stop(0, &[], 0, &stands[6]),
        ],
        end: stands[6].to_vec(),
    }
}

/// Carried on under rule 3: in the first round refused at once, from its end on to the
/// end. Endorsed down to the low principal all of it passes.
fn under_full_provenance(trace: &Trace) -> Vec<Case> {
    let refused = [(1, FIRST), (2, SECOND), (3, THIRD)].map(|(from, offset)| {
        let (output, pause) = trace.stops[from as usize].checkpoint(from);
        let draft = trace.draft(&format!("from {from} with the rest"), 3);
        draft.carry_on(output, pause).refused(16, 0, offset, from)
    });
    let passing = (4..9).map(|from| trace.carry_on(from, AMPLE, 3));
    let stops = [(0, 9), (1, 5), (3, 5), (3, 7), (2, 8), (3, 9), (5, 9)];
    let endorsed = stops.map(|(from, to)| {
        let (output, pause) = trace.stops[from as usize].checkpoint(from);
        case(
            format!("a label that rises, endorsed, from {from} with {to}"),
            BACK,
        )
        .store(trace.store.clone())
        .floored(0x81, 0, trace.blocks[0].1.clone())
        .rule(3)
        .budget(to)
        .carry_on(output, pause)
        .ends(trace.after(to))
    });
    refused.into_iter().chain(passing).chain(endorsed).collect()
}
