//! Checkpoints: an output and a pause sheet together, and what can be told of them
//! without a runner.

use crate::answers::Answer;
use crate::calls::{Run, Stretch};
use crate::code::Command;
use crate::decode::{blocks_in, store_in};
use crate::expressions::Expression;
use crate::lattices::Lattice;
use crate::outputs::{records_in, writes_in, Record};
use crate::rehearsal::{Rehearsal, Watch};
use crate::sheets::Sheet;
use crate::steps::Followed;
use crate::values::Value;

/// "the old output and pause sheet, only read, as opening values and place"
/// (document 02, N8)
#[derive(Debug, Clone, PartialEq, Eq)]
pub struct Checkpoint {
    pub output: Vec<u8>,
    pub pause: Vec<u8>,
}

/// What a pause sheet says: "steps so far (4 bytes), path length (1), block number
/// (1), then two parallel arrays of one byte an entry".
#[derive(Debug, Clone, PartialEq, Eq)]
pub struct Place {
    pub steps: u32,
    pub block: usize,
    /// Each child taken, and the label inside it.
    pub path: Vec<(u8, u8)>,
}

impl Place {
    /// "a lent buffer of exactly 256 bytes"
    pub const WIDTH: usize = 256;
    pub const HEAD: usize = 6;
    /// Where the path length stands, and the block number.
    pub const LENGTH: usize = 4;
    pub const BLOCK: usize = 5;

    /// The place that a sheet says, if its arrays fit and its unused bytes are 0.
    pub fn in_sheet(sheet: &[u8]) -> Option<Place> {
        let (steps, rest) = sheet.split_first_chunk()?;
        let ([length, block], rest) = rest.split_first_chunk()?;
        let length = usize::from(*length);
        let (children, rest) = rest.split_at_checked(length)?;
        let (labels, unused) = rest.split_at_checked(length)?;
        let path = children.iter().copied().zip(labels.iter().copied());
        unused.iter().all(|byte| *byte == 0).then(|| Place {
            steps: u32::from_le_bytes(*steps),
            block: usize::from(*block),
            path: path.collect(),
        })
    }

    /// Where the command stands to which the path leads, and itself, if labels
    /// follow on the way.
    pub fn leads_to(&self, programme: &[u8], lattice: &Lattice) -> Option<(usize, Command)> {
        let mut command = blocks_in(programme)?.get(self.block)?.command.clone();
        let (mut offset, mut outside) = (0, lattice.top());
        for (child, label) in &self.path {
            let is_known = usize::from(*label) < lattice.principals();
            let follows = match command {
                Command::Sequence(_) => *label == outside,
                _ => is_known && lattice.at_or_below(*label, outside),
            };
            if !follows {
                return None;
            }
            let (before, part) = part_of(command, *child)?;
            offset += before;
            (command, outside) = (part, *label);
        }
        let has_step = !matches!(command, Command::Skip | Command::Sequence(_));
        has_step.then_some((offset, command))
    }
}

/// A part of a command, and how many bytes stand before it there.
fn part_of(command: Command, child: u8) -> Option<(usize, Command)> {
    match (command, child) {
        (Command::Sequence(mut commands), _) => {
            let place = usize::from(child);
            let before = commands.get(..place)?.iter().map(Command::length);
            let before = 2 + before.sum::<usize>();
            (place < commands.len()).then(|| (before, commands.swap_remove(place)))
        }
        (
            Command::If {
                guard, then_part, ..
            },
            0,
        ) => Some((behind(&guard), *then_part)),
        (
            Command::If {
                guard,
                then_part,
                else_part,
            },
            1,
        ) => Some((behind(&guard) + then_part.length(), *else_part)),
        (Command::While { guard, body }, 0) => Some((behind(&guard), *body)),
        _ => None,
    }
}

/// Where the first part stands behind the command's byte and its guard.
fn behind(guard: &Expression) -> usize {
    let mut sheet = Sheet::default();
    guard.write_to(&mut sheet);
    1 + sheet.bytes.len()
}

/// What a stretch left: of each buffer its bytes, if any is not as lent.
pub struct Left<'a> {
    pub answer: Answer,
    pub output: Option<&'a [u8]>,
    pub pause: Option<&'a [u8]>,
}

/// What goes against document 02 in what a stretch left, in words.
pub fn fault_of(stretch: &Stretch, left: &Left) -> Option<&'static str> {
    let has_slots = stretch.output_length > 0;
    if let Some(fault) = fault_of_judging(stretch, left.answer) {
        return Some(fault);
    }
    match (left.answer.number, left.output, left.pause) {
        (17, None, _) if has_slots => Some("spent, and the output is as lent"),
        (17, _, None) => Some("spent, and the pause buffer is as lent"),
        (17, output, Some(pause)) => {
            fault_of_checkpoint(stretch, left.answer, output.unwrap_or_default(), pause)
        }
        (_, _, Some(_)) => Some("not spent, and the pause buffer is not as lent"),
        (0, None, _) if has_slots => Some("finished, and the output is as lent"),
        (0, Some(output), None) => fault_of_output(left.answer.steps, output),
        (0, None, None) => None,
        (_, Some(_), None) => Some("refused, and the output is not as lent"),
        (_, None, None) => None,
    }
}

/// 19 comes just where the checkpoint that is carried on from is not good.
fn fault_of_judging(stretch: &Stretch, answer: Answer) -> Option<&'static str> {
    let old = stretch.old.as_ref();
    match (answer.number, old) {
        (18, _) => Some("18, and no journal is lent"),
        (19, None) => Some("19, and nothing is carried on"),
        (19, Some(old)) if is_good(stretch, old) => Some("19, and the checkpoint is good"),
        (0 | 13..=17, Some(old)) if !is_good(stretch, old) => {
            Some("carried on from a checkpoint that is not good")
        }
        _ => None,
    }
}

/// "19 when the path doesn't lead to an assignment, if or while, a label isn't at or
/// below the one outside it (equal in a sequence), an unused byte isn't 0, a value is
/// ill-formed, or counts add up to more than the steps"; the sheets are good.
pub fn is_good(stretch: &Stretch, Checkpoint { output, pause }: &Checkpoint) -> bool {
    let store = store_in(&stretch.store).expect("the store sheet is judged before");
    let Some((place, records)) = Place::in_sheet(pause).zip(records_in(output)) else {
        return false;
    };
    let slots = store.table.slots();
    let fits = |record: &Record| match record.value {
        Value::ReadView(slot) | Value::WriteView(slot) => usize::from(slot) < slots,
        _ => true,
    };
    let writes: usize = records.iter().map(|record| record.count as usize).sum();
    let leads = place.leads_to(&stretch.programme, &store.table.lattice);
    records.iter().all(fits) && writes <= place.steps as usize && leads.is_some()
}

fn fault_of_output(steps: u32, output: &[u8]) -> Option<&'static str> {
    let Some(writes) = writes_in(output) else {
        return Some("a value in the output is ill-formed");
    };
    (writes > steps as usize).then_some("more writes than steps")
}

/// A checkpoint that was written leads to the command of the answer, "and the branch
/// label inside it" is the one under which that is reached from the start.
fn fault_of_checkpoint(
    stretch: &Stretch,
    answer: Answer,
    output: &[u8],
    pause: &[u8],
) -> Option<&'static str> {
    let Some(place) = Place::in_sheet(pause) else {
        return Some("the arrays don't fit the sheet, or an unused byte isn't 0");
    };
    let store = store_in(&stretch.store).expect("a spent run has good sheets");
    let lattice = &store.table.lattice;
    if (place.steps, place.block) != (answer.steps, answer.block) {
        return Some("the sheet has other steps or another block than the answer");
    }
    match place.leads_to(&stretch.programme, lattice) {
        Some((offset, _)) if offset == answer.offset => (),
        Some(_) => return Some("the path leads to another command than the answer's"),
        None => return Some("the path leads to no step, or its labels don't follow"),
    }
    let label = place.path.last().map_or(lattice.top(), |(_, label)| *label);
    let is_copied = |old: &Checkpoint| (output, pause) == (&old.output, &old.pause);
    match &stretch.old {
        None if next_of(stretch, answer).is_some_and(|next| next.0 != label) => {
            Some("the last label is not that of the branch")
        }
        Some(old) if stretch.budget <= steps_so_far(&old.pause) && !is_copied(old) => {
            Some("no steps are left, and the checkpoint is not copied")
        }
        _ => fault_of_output(answer.steps, output),
    }
}

/// The steps so far of a good pause sheet.
pub fn steps_so_far(pause: &[u8]) -> u32 {
    pause
        .first_chunk()
        .map_or(0, |steps| u32::from_le_bytes(*steps))
}

/// The branch label of the step that is next after those of a start, and its
/// command, if they can be followed.
fn next_of(stretch: &Stretch, answer: Answer) -> Option<(u8, Command)> {
    let run = Run {
        store: stretch.store.clone(),
        programme: stretch.programme.clone(),
        rule: stretch.rule,
        budget: stretch.budget,
        output_length: stretch.output_length,
        journal_length: 0,
    };
    let followed = Followed::of(&run, answer)?;
    let mut last = Last::default();
    followed.play(&mut last);
    last.0.filter(|_| followed.is_whole())
}

/// The last command that a run comes to, and its branch label.
#[derive(Default)]
struct Last(Option<(u8, Command)>);

impl Watch for Last {
    fn comes_to(&mut self, _: &Rehearsal, command: &Command, branch: u8) {
        self.0 = Some((branch, command.clone()));
    }
}
