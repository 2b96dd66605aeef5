//! Which test a checkpoint fails that is refused by 19: "its path leads to no
//! assignment, if or while, a label isn't at or below the one outside it (in a
//! sequence, equal to it), an unused byte isn't 0, a value is ill-formed, or counts
//! add up to more than the steps" (README, `The answer`).

use model::order::at_or_below;
use model::{count, Code, Command, Form, Names, Store};
use muntyzhap::code::MOST_DEPTH;
use muntyzhap::sheet::Slot;
use muntyzhap::{Checkpoint, Value};

use crate::checkpoint::Paused;
use crate::job::Job;
use crate::table::there_are;

/// What is wrong with a checkpoint for these sheets, which are good.
pub fn faults(job: &Job, paused: &Paused) -> Vec<String> {
    let store = job.store_model().unwrap_or_default();
    let (principals, slots) = (store.masks.len(), store.slots.len());
    let programme = inspect::programme_model(&job.programme, principals, slots);
    let blocks = programme.unwrap_or_default().blocks;
    let commands = blocks.iter().filter_map(|block| match &block.code {
        Code::Command(command) => Some(command),
        Code::Raw(_) => None,
    });
    let commands: Vec<&Command> = commands.collect();
    let names = &job.names;
    let mut faults = vec![];
    match Path::of(&paused.pause) {
        Ok(path) => faults.extend(path.fault(&commands, &store, names)),
        Err(fault) => faults.push(fault),
    }
    faults.extend(values(&paused.out, slots, names));
    faults.extend(counts(paused));
    let told = faults
        .into_iter()
        .map(|fault| format!("in the checkpoint {fault}"));
    told.collect()
}

/// The path of a pause sheet: its block, and of each command open around the next
/// one the part taken and the label inside it.
struct Path<'a> {
    block: usize,
    children: &'a [u8],
    labels: &'a [u8],
}

impl Path<'_> {
    /// Read up to where nothing but zeros may follow.
    fn of(pause: &[u8]) -> Result<Path<'_>, String> {
        let path = Path::split(pause).ok_or("the pause sheet is cut")?;
        let (path, unused) = path.map_err(|length| {
            let most = MOST_DEPTH - 1;
            format!("the path has {length} parts, and commands nest at most {MOST_DEPTH} deep, so it has at most {most}")
        })?;
        match unused.iter().position(|byte| *byte != 0) {
            Some(place) => Err(format!(
                "byte {} of the pause sheet is {:02X}, and after the path every byte is 00",
                pause.len() - unused.len() + place,
                unused[place]
            )),
            None => Ok(path),
        }
    }

    /// The path and the bytes after it, or its length if that is too long.
    #[allow(clippy::type_complexity)]
    fn split(pause: &[u8]) -> Option<Result<(Path<'_>, &[u8]), usize>> {
        let (_, rest) = pause.split_at_checked(Checkpoint::STEPS_BYTES)?;
        let (length, rest) = rest.split_first()?;
        let (block, rest) = rest.split_first()?;
        let (length, block) = (usize::from(*length), usize::from(*block));
        if length >= MOST_DEPTH {
            return Some(Err(length));
        }
        let (children, rest) = rest.split_at_checked(length)?;
        let (labels, unused) = rest.split_at_checked(length)?;
        let path = Path {
            block,
            children,
            labels,
        };
        Some(Ok((path, unused)))
    }

    /// Goes along the path from the block's own command, as far as it leads.
    fn fault(&self, commands: &[&Command], store: &Store, names: &Names) -> Option<String> {
        let Some(mut command) = commands.get(self.block).copied() else {
            let there_are = there_are(commands.len(), "block");
            return Some(format!(
                "the path is in block {}, and {there_are}",
                self.block
            ));
        };
        let mut outside = top(&store.masks)?;
        for (child, label) in self.children.iter().zip(self.labels) {
            let (child, label) = (usize::from(*child), usize::from(*label));
            let inside = (outside, label);
            if let Some(fault) = label_fault(command, inside, store, names) {
                return Some(fault);
            }
            let parts = command.form.parts();
            let Some(part) = parts.get(child) else {
                let (kind, at, parts) = (command.form.kind(), command.at, parts.len());
                return Some(format!(
                    "the path takes part {child} of the {kind} at offset {at} of block {}, which has {}",
                    self.block,
                    count(parts, "part")
                ));
            };
            (command, outside) = (part, label);
        }
        let (kind, at) = (command.form.kind(), command.at);
        matches!(command.form, Form::Skip | Form::Sequence(_)).then(|| {
            format!(
                "the path leads to the {kind} at offset {at} of block {}, and a run is paused at an assignment, \
                 an if or a while",
                self.block
            )
        })
    }
}

/// The principal that all stand below.
fn top(masks: &[u32]) -> Option<usize> {
    let mut all = 0..masks.len();
    all.find(|top| (0..masks.len()).all(|lower| at_or_below(masks, lower, *top)))
}

/// What is wrong with the label inside a part of this command.
fn label_fault(
    command: &Command,
    (outside, inside): (usize, usize),
    store: &Store,
    names: &Names,
) -> Option<String> {
    let principals = store.masks.len();
    if inside >= principals {
        let there_are = there_are(principals, "principal");
        return Some(format!("a label of the path is {inside}, and {there_are}"));
    }
    let (kind, at) = (command.form.kind(), command.at);
    let (lower, upper) = (names.principal(inside), names.principal(outside));
    let is_sequence = matches!(command.form, Form::Sequence(_));
    if is_sequence && inside != outside {
        return Some(format!(
            "the label inside the sequence at offset {at} is {lower}, and outside it is {upper}: they have to be equal"
        ));
    }
    (!at_or_below(&store.masks, inside, outside)).then(|| {
        format!(
            "the label inside the {kind} at offset {at} is {lower}, which does not stand at or below {upper}, \
             the one outside"
        )
    })
}

/// The slots whose values are ill-formed.
fn values(out: &[u8], slots: usize, names: &Names) -> Vec<String> {
    let chunks = out.chunks_exact(Slot::BYTES).enumerate();
    let faults = chunks.filter_map(|(slot, bytes)| {
        let value = bytes.get(..Value::BYTES)?;
        let slot = names.slot(slot);
        match Value::from_bytes(value) {
            None => Some(format!(
                "the value of slot {slot} is ill-formed: {}",
                hexadecimal(value)
            )),
            Some(Value::ReadView(viewed) | Value::WriteView(viewed))
                if usize::from(viewed) >= slots =>
            {
                let there_are = there_are(slots, "slot");
                Some(format!(
                    "slot {slot} holds a view of slot {viewed}, and {there_are}"
                ))
            }
            Some(_) => None,
        }
    });
    faults.collect()
}

fn hexadecimal(bytes: &[u8]) -> String {
    let bytes = bytes.iter().map(|byte| format!("{byte:02X}"));
    bytes.collect::<Vec<_>>().join(" ")
}

fn counts(paused: &Paused) -> Option<String> {
    let counts = paused.out.chunks_exact(Slot::BYTES).filter_map(|bytes| {
        let count = bytes.get(Value::BYTES..)?.first_chunk()?;
        Some(u64::from(u32::from_le_bytes(*count)))
    });
    let (writes, steps) = (counts.sum::<u64>(), paused.steps());
    (writes > u64::from(steps)).then(|| {
        format!("the counts of writes add up to {writes}, and the steps so far are {steps}")
    })
}
