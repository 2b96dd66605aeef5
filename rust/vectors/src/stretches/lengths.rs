//! Buffers of other lengths: "12 also covers all these."

use crate::case::{case, Case, Draft};
use sheets::*;

pub fn cases() -> Vec<Case> {
    let mut cases = started();
    cases.extend(carried_on());
    cases.extend(exchanged());
    cases.extend(without_slots());
    cases
}

const COVERS: &str = "12 also covers all these.";
const EXACTLY: &str = "a lent buffer of exactly 256 bytes";
/// Two slots.
const OUTPUT: usize = 2 * OUTPUT_SLOT;
const OUTPUTS: [usize; 6] = [0, OUTPUT_SLOT, 2 * VALUE, OUTPUT - 1, OUTPUT + 1, PAUSE];
const PAUSES: [usize; 8] = [0, 1, 6, OUTPUT, PAUSE - 1, PAUSE + 1, 257 + 255, 3328];

/// The run is spent, so it would write to both.
fn spent(name: String, says: &'static str) -> Draft {
    case(name, says)
        .programme(example_programme([0, 1]))
        .budget(0)
}

fn started() -> Vec<Case> {
    let start = |output: usize, pause: usize| {
        let name = format!("start, output of {output} and pause of {pause} bytes");
        spent(name, EXACTLY).start().output(output).pause(pause)
    };
    let opening = [integer(5), integer(7)].map(kept);
    let outputs = OUTPUTS.map(|output| start(output, PAUSE).refused_early(12));
    let pauses = PAUSES.map(|pause| start(OUTPUT, pause).refused_early(12));
    let both = start(OUTPUT - 1, PAUSE - 1).refused_early(12);
    let right = start(OUTPUT, PAUSE).pauses(0, 0, &[], 0, &opening);
    let all = outputs.into_iter().chain(pauses);
    all.chain([both, right]).collect()
}

/// The lengths of all four: old output, old pause sheet, output and pause buffer.
fn next(old: [usize; 2], new: [usize; 2]) -> Draft {
    let name = format!(
        "carry on, old of {} and {}, new of {} and {} bytes",
        old[0], old[1], new[0], new[1]
    );
    let mut output = output(&[integer(5), integer(7)].map(kept));
    output.resize(old[0], 0);
    let mut pause = pause(0, 0, &[]);
    pause.resize(old[1], 0);
    spent(name, COVERS)
        .carry_on(output, pause)
        .output(new[0])
        .pause(new[1])
}

fn carried_on() -> Vec<Case> {
    let right = [OUTPUT, PAUSE];
    let opening = [integer(5), integer(7)].map(kept);
    let mut cases = vec![next(right, right).pauses(0, 0, &[], 0, &opening)];
    for length in OUTPUTS {
        cases.push(next([length, PAUSE], right).refused_early(12));
        cases.push(next(right, [length, PAUSE]).refused_early(12));
    }
    for length in PAUSES {
        cases.push(next([OUTPUT, length], right).refused_early(12));
        cases.push(next(right, [OUTPUT, length]).refused_early(12));
    }
    let short = [OUTPUT - 1, PAUSE - 1];
    cases.push(next(short, short).refused_early(12));
    cases.push(next([OUTPUT + 1, PAUSE + 1], right).refused_early(12));
    cases
}

/// The output where the pause buffer is due.
fn exchanged() -> Vec<Case> {
    let (right, exchanged) = ([OUTPUT, PAUSE], [PAUSE, OUTPUT]);
    let both = [next(right, exchanged), next(exchanged, right)];
    both.map(|draft| draft.refused_early(12)).into()
}

/// No output, and a pause buffer of 256 bytes.
fn without_slots() -> Vec<Case> {
    let empty = |draft: Draft| draft.store(store(&[1], &[]));
    let endless = while_do(literal(truth(true)), skip());
    let block = |name: &str| {
        let draft = empty(case(format!("no slots, {name}"), COVERS));
        draft.block(0, endless.clone()).budget(3)
    };
    let next = |name, old: usize| block(name).carry_on(vec![0; old], pause(2, 0, &[]));
    vec![
        block("start").start().pauses(3, 0, &[], 0, &[]),
        block("start, an output of a byte")
            .start()
            .output(1)
            .refused_early(12),
        block("start, a pause of no bytes")
            .start()
            .pause(0)
            .refused_early(12),
        next("carried on", 0).pauses(3, 0, &[], 0, &[]),
        next("carried on from an output of a byte", 1).refused_early(12),
        next("carried on into an output of a byte", 0)
            .output(1)
            .refused_early(12),
    ]
}
