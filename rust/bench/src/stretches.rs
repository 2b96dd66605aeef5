//! Times of runs that are paused, and carried on, by the proved runner.

use muntyzhap::{raw, Checkpoint, MOST_BUDGET};

use crate::timing::Best;
use crate::workloads::Workload;

/// Labels are kept under every rule.
const RULE: u32 = 3;
/// The steps of a slice.
pub const SLICE: u32 = 10_000;

const SPENT: u32 = 17;

/// What a stretch writes.
#[derive(Debug, Clone, PartialEq, Eq)]
struct Written {
    output: Vec<u8>,
    pause: Vec<u8>,
}

impl Written {
    fn room_for(workload: &Workload) -> Written {
        Written {
            output: vec![0; workload.output],
            pause: vec![0; Checkpoint::PAUSE_BYTES],
        }
    }
}

/// A run that is paused, with the best times so far.
pub struct Paused<'a> {
    pub workload: &'a Workload,
    kept: Written,
    room: Written,
    /// Refused by 17, in a run that can't be paused.
    refused: Best,
    /// Paused from its start on.
    started: Best,
    /// Carried on, and paused at once.
    carried: Best,
}

impl<'a> Paused<'a> {
    pub fn new(workload: &'a Workload) -> Paused<'a> {
        let (mut kept, mut room) = (Written::room_for(workload), Written::room_for(workload));
        let answer = start(workload, workload.budget, &mut kept);
        let name = &workload.name;
        assert_eq!(answer.number, SPENT, "{name}: not paused");
        agree(workload, answer, &kept);
        let again = carry_on(workload, workload.budget, &kept, &mut room);
        assert_eq!(
            (again, &room),
            (answer, &kept),
            "{name}: not paused at once"
        );
        Paused {
            workload,
            refused: Best::of(|| refuse(workload, &mut room)),
            started: Best::of(|| start(workload, workload.budget, &mut room)),
            carried: Best::of(|| carry_on(workload, workload.budget, &kept, &mut room)),
            kept,
            room,
        }
    }

    pub fn repeat(&mut self) {
        let (workload, kept, room) = (self.workload, &self.kept, &mut self.room);
        self.refused.repeat(|| refuse(workload, room));
        self.started
            .repeat(|| start(workload, workload.budget, room));
        self.carried
            .repeat(|| carry_on(workload, workload.budget, kept, room));
    }

    /// What it takes to write the checkpoint, in nanoseconds.
    pub fn writing(&self) -> f64 {
        self.started.nanoseconds() - self.reading()
    }

    /// What it takes to be taken up from the checkpoint and to write it again: the
    /// steps before it are few.
    pub fn both(&self) -> f64 {
        self.carried.nanoseconds() - self.reading()
    }

    /// What is beside that: the sheets are read.
    pub fn reading(&self) -> f64 {
        self.refused.nanoseconds()
    }
}

/// A run in slices, and in one go, with the best times so far.
pub struct Sliced<'a> {
    pub workload: &'a Workload,
    rooms: [Written; 2],
    slices: Best,
    whole: Best,
}

impl<'a> Sliced<'a> {
    pub fn new(workload: &'a Workload) -> Sliced<'a> {
        let [mut one, mut other] = [(); 2].map(|_| Written::room_for(workload));
        let expected = start(workload, MOST_BUDGET, &mut one);
        let end = one.output.clone();
        agree(workload, expected, &one);
        let mut rooms = [one, other.clone()];
        let answer = in_slices(workload, &mut rooms);
        let name = &workload.name;
        assert_eq!(answer, expected, "{name}: the answers differ");
        assert!(
            rooms.iter().any(|room| room.output == end),
            "{name}: the outputs differ"
        );
        Sliced {
            workload,
            slices: Best::of(|| in_slices(workload, &mut rooms)),
            whole: Best::of(|| start(workload, MOST_BUDGET, &mut other)),
            rooms,
        }
    }

    pub fn repeat(&mut self) {
        let (workload, rooms) = (self.workload, &mut self.rooms);
        self.slices.repeat(|| in_slices(workload, rooms));
        self.whole
            .repeat(|| start(workload, MOST_BUDGET, &mut rooms[0]));
    }

    /// Its time in slices to that in one go.
    pub fn quotient(&self) -> f64 {
        self.slices.nanoseconds() / self.whole.nanoseconds()
    }

    /// What a slice costs more, in nanoseconds.
    pub fn more_a_slice(&self) -> f64 {
        let slices = f64::from(MOST_BUDGET / SLICE);
        (self.slices.nanoseconds() - self.whole.nanoseconds()) / slices
    }
}

/// A run that is spent, and can't be paused.
fn refuse(workload: &Workload, room: &mut Written) -> raw::Answer {
    let Workload {
        store,
        programme,
        budget,
        ..
    } = workload;
    raw::run(store, programme, RULE, *budget, &mut room.output, &mut [])
}

fn start(workload: &Workload, budget: u32, room: &mut Written) -> raw::Answer {
    let Written { output, pause } = room;
    let (store, programme) = (&workload.store, &workload.programme);
    raw::start(store, programme, RULE, budget, output, pause)
}

fn carry_on(workload: &Workload, budget: u32, old: &Written, room: &mut Written) -> raw::Answer {
    let Written { output, pause } = room;
    let (store, programme) = (&workload.store, &workload.programme);
    raw::carry_on(
        store,
        programme,
        RULE,
        budget,
        &old.output,
        &old.pause,
        output,
        pause,
    )
}

/// Slice by slice, written to both in turn.
fn in_slices(workload: &Workload, [one, other]: &mut [Written; 2]) -> raw::Answer {
    let (mut old, mut new) = (one, other);
    let mut answer = start(workload, SLICE, new);
    while answer.number == SPENT && answer.steps < MOST_BUDGET {
        (old, new) = (new, old);
        answer = carry_on(workload, answer.steps + SLICE, old, new);
    }
    answer
}

/// The second runner answers and writes the same from the start on.
fn agree(workload: &Workload, answer: raw::Answer, written: &Written) {
    let (name, mut room) = (&workload.name, Written::room_for(workload));
    let Written { output, pause } = &mut room;
    let (store, programme) = (&workload.store, &workload.programme);
    let second = second_runner::start(store, programme, RULE, workload.budget, output, pause);
    let told = (answer.number, answer.steps);
    assert_eq!(
        (second.number, second.steps),
        told,
        "{name}: the answers differ"
    );
    assert_eq!(&room, written, "{name}: the runners write otherwise");
}
