//! Workloads of runs that are paused, and carried on.

use muntyzhap::code::*;
use muntyzhap::sheet::{MOST_BLOCKS, MOST_CODE};
use muntyzhap::{BuildError, Value};

use crate::operations::{counting, one};
use crate::sheets::{full_store, programme};
use crate::workloads::{many_slots, Workload};

/// (m): each is paused where an assignment is next to which the way through the
/// code is long, in another way.
pub fn of_pauses() -> Result<Vec<Workload>, BuildError> {
    const DEEP: usize = 29;
    let skips = || (0..).map(|_| skip());
    let reading = assignment(reads(MOST_NESTED, 0)?, reads(MOST_NESTED, 0)?);
    let pair = sequence(&[skip(), skip()])?;
    // A processor can't guess which is next.
    let scattered = (0..).map(|place| match is_scattered(place) {
        true => pair.clone(),
        false => skip(),
    });
    let short = vec![sequence(&vec![skip(); 250])?; MOST_BLOCKS - 1];
    let last = sequence(&[skip(), next()])?;
    Ok(vec![
        paused(
            "m  skips in 29 sequences",
            &[in_sequences(DEEP, heap(skips())?)?],
            0,
        )?,
        else_parts("m  skips in 29 else-parts", DEEP, heap(skips())?)?,
        else_parts(
            "m  mixed skips in 28 else-parts",
            DEEP - 1,
            heap(scattered)?,
        )?,
        else_parts(
            "m  8 reads in 29 else-parts",
            DEEP,
            heap((0..).map(|_| reading.clone()))?,
        )?,
        paused(
            "m  in the last of 64 blocks",
            &[short, vec![last]].concat(),
            0,
        )?,
    ])
}

/// (n): a million steps each, of a short programme and of a long one.
pub fn of_slices() -> Result<Vec<Workload>, BuildError> {
    let named = |name: &str, workload| Workload {
        name: name.to_string(),
        ..workload
    };
    Ok(vec![
        named("n  a counting loop", counting()?),
        named("n  720 assignments, 256 slots", many_slots()?),
    ])
}

/// Over a full store, after so many steps.
fn paused(name: &str, blocks: &[Command], steps: u32) -> Result<Workload, BuildError> {
    Ok(Workload {
        budget: steps,
        ..Workload::of_sheets(name, full_store()?, programme(blocks)?)
    })
}

fn in_sequences(deep: usize, inner: Command) -> Result<Command, BuildError> {
    (0..deep).try_fold(inner, |inner, _| sequence(&[inner, skip()]))
}

/// Each guard on the way is a step.
fn else_parts(name: &str, deep: usize, inner: Command) -> Result<Workload, BuildError> {
    let code = (0..deep).try_fold(inner, |inner, _| {
        if_command(literal(Value::Truth(false)), skip(), inner)
    })?;
    paused(name, &[code], deep as u32)
}

/// As many of these as there is room for inside other commands, in sequences of a
/// sequence, and at the end the assignment that is next.
fn heap(commands: impl Iterator<Item = Command>) -> Result<Command, BuildError> {
    const ROOM: usize = MOST_CODE - 540;
    const MOST_COUNT: usize = 255;
    let mut bytes = 0;
    let fitting = commands.take_while(|command| {
        bytes += command.bytes().len();
        bytes <= ROOM
    });
    let all: Vec<Command> = fitting.chain([next()]).collect();
    let parts = all.chunks(MOST_COUNT).map(sequence);
    sequence(&parts.collect::<Result<Vec<_>, _>>()?)
}

fn next() -> Command {
    assign(0, one())
}

fn is_scattered(place: u32) -> bool {
    let mixed = place.wrapping_mul(0x9E37_79B9);
    (mixed ^ mixed >> 15).wrapping_mul(0x85EB_CA6B) >> 31 == 1
}
