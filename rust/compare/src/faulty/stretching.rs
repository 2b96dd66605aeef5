//! Stretches that leave something else, judge checkpoints otherwise, or carry on from
//! another place.

use crate::answers::Answer;
use crate::calls::{Stretch, StretchRunner};
use crate::checkpoints::{steps_so_far, Checkpoint, Place};
use crate::decode::store_in;
use crate::outputs::Record;
use crate::second;
use crate::values::Value;

/// What is left is wrong by itself.
pub const LEAVING: [(&str, StretchRunner); 9] = [
    (
        "the pause buffer is written on finishing",
        |it, output, pause| changed(it, output, pause, &[0], |_, pause| pause.fill(0)),
    ),
    ("a refused step writes the output", |it, output, pause| {
        changed(it, output, pause, &[13, 14, 15, 16], |output, _| {
            output.fill(0)
        })
    }),
    ("19 writes the pause buffer", |it, output, pause| {
        changed(it, output, pause, &[19], |_, pause| pause.fill(0))
    }),
    ("an unused byte isn't 0", |it, output, pause| {
        changed(it, output, pause, &[17], |_, pause| pause[255] = 1)
    }),
    ("children are counted from one", |it, output, pause| {
        changed(it, output, pause, &[17], |_, pause| {
            let length = usize::from(pause[Place::LENGTH]);
            let children = &mut pause[Place::HEAD..][..length];
            children.iter_mut().for_each(|child| *child += 1);
        })
    }),
    ("the sheet has no steps", |it, output, pause| {
        changed(it, output, pause, &[17], |_, pause| pause[..4].fill(0))
    }),
    ("the innermost label is lost", loses_a_label),
    ("the output is not written on pausing", keeps_output),
    ("with no steps left the budget is said", says_budget),
];

/// 19 is judged otherwise, or elsewhere.
pub const JUDGING: [(&str, StretchRunner); 6] = [
    ("labels are not judged", |it, output, pause| {
        mended(it, output, pause, |stretch, old| {
            let labels = labels_of(&mut old.pause);
            labels.fill(top_of(stretch));
        })
    }),
    ("unused bytes are not judged", |it, output, pause| {
        mended(it, output, pause, |_, old| {
            let length = usize::from(old.pause[Place::LENGTH]);
            let unused = old.pause.iter_mut().skip(Place::HEAD + 2 * length);
            unused.for_each(|byte| *byte = 0);
        })
    }),
    ("counts are added up in four bytes", |it, output, pause| {
        mended(it, output, pause, |_, old| {
            let counts = || old.output.chunks_exact(Record::WIDTH).map(count_in);
            if counts().fold(0, u32::wrapping_add) <= steps_so_far(&old.pause) {
                without_counts(&mut old.output);
            }
        })
    }),
    ("values are not judged", |it, output, pause| {
        mended(it, output, pause, |_, old| {
            for slot in old.output.chunks_exact_mut(Record::WIDTH) {
                if Value::in_bytes(&slot[..Value::WIDTH]).is_none() {
                    slot[..Value::WIDTH].fill(0);
                }
            }
        })
    }),
    ("19 is judged before 12", |it, output, pause| {
        let answer = second::stretch(it, output, pause);
        match (answer.number, &it.old) {
            (12, Some(old)) if Place::in_sheet(&old.pause).is_none() => Answer::only(19),
            _ => answer,
        }
    }),
    (
        "a budget below the steps so far is refused",
        |it, output, pause| {
            let steps = it.old.as_ref().map_or(0, |old| steps_so_far(&old.pause));
            match steps > it.budget {
                true => Answer::only(11),
                false => second::stretch(it, output, pause),
            }
        },
    ),
];

/// What is carried on is something else, in both runners alike.
pub const CARRYING: [(&str, StretchRunner); 7] = [
    ("labels are lost", |it, output, pause| {
        elsewhere(it, output, pause, |stretch, old| {
            labels_of(&mut old.pause).fill(top_of(stretch));
        })
    }),
    ("counts start at 0 again", |it, output, pause| {
        elsewhere(it, output, pause, |_, old| without_counts(&mut old.output))
    }),
    (
        "values are those of the store sheet",
        |it, output, pause| {
            elsewhere(it, output, pause, |stretch, old| {
                let store = store_in(&stretch.store).expect("a good store");
                let slots = old.output.chunks_exact_mut(Record::WIDTH);
                for (slot, value) in slots.zip(&store.values) {
                    slot[..Value::WIDTH].copy_from_slice(&value.bytes());
                }
            })
        },
    ),
    ("the next child is taken", |it, output, pause| {
        elsewhere(it, output, pause, |_, old| {
            let length = usize::from(old.pause[Place::LENGTH]);
            if length > 0 {
                old.pause[Place::HEAD + length - 1] += 1;
            }
        })
    }),
    ("a guard is judged again", |it, output, pause| {
        elsewhere(it, output, pause, |_, old| without_last(&mut old.pause))
    }),
    ("steps start at 0 again", |it, output, pause| {
        let mut answer = second::stretch(it, output, pause);
        let so_far = it.old.as_ref().map_or(0, |old| steps_so_far(&old.pause));
        answer.steps = answer.steps.saturating_sub(so_far);
        answer
    }),
    (
        "the budget leaves out the steps so far",
        |it, output, pause| {
            let so_far = it.old.as_ref().map_or(0, |old| steps_so_far(&old.pause));
            let mut longer = it.clone();
            longer.budget = it.budget.saturating_add(so_far).min(1_000_000);
            second::stretch(&longer, output, pause)
        },
    ),
];

/// The second runner, with what it leaves changed so where it answers one of these.
fn changed(
    stretch: &Stretch,
    output: &mut [u8],
    pause: &mut [u8],
    numbers: &[u32],
    change: fn(&mut [u8], &mut [u8]),
) -> Answer {
    let answer = second::stretch(stretch, output, pause);
    if numbers.contains(&answer.number) {
        change(output, pause);
    }
    answer
}

/// The second runner, but that what it refuses by 19 is mended and tried again.
fn mended(
    stretch: &Stretch,
    output: &mut [u8],
    pause: &mut [u8],
    mend: fn(&Stretch, &mut Checkpoint),
) -> Answer {
    let answer = second::stretch(stretch, output, pause);
    match (answer.number, &stretch.old) {
        (19, Some(old)) => {
            let mut old = old.clone();
            mend(stretch, &mut old);
            second::stretch(&stretch.next(old, stretch.budget), output, pause)
        }
        _ => answer,
    }
}

/// The second runner, but that a good checkpoint is changed so before; if it is good
/// then.
fn elsewhere(
    stretch: &Stretch,
    output: &mut [u8],
    pause: &mut [u8],
    change: fn(&Stretch, &mut Checkpoint),
) -> Answer {
    let plain = stretch.second().answer;
    let Some(old) = stretch
        .old
        .as_ref()
        .filter(|_| matches!(plain.number, 0 | 13..=17))
    else {
        return second::stretch(stretch, output, pause);
    };
    let mut old = old.clone();
    change(stretch, &mut old);
    let other = stretch.next(old, stretch.budget);
    match other.second().answer.number {
        19 => second::stretch(stretch, output, pause),
        _ => second::stretch(&other, output, pause),
    }
}

fn loses_a_label(stretch: &Stretch, output: &mut [u8], pause: &mut [u8]) -> Answer {
    let answer = second::stretch(stretch, output, pause);
    if answer.number == 17 {
        if let Some(last) = labels_of(pause).last_mut() {
            *last = top_of(stretch);
        }
    }
    answer
}

fn keeps_output(stretch: &Stretch, output: &mut [u8], pause: &mut [u8]) -> Answer {
    let lent = output.to_vec();
    let answer = second::stretch(stretch, output, pause);
    if answer.number == 17 {
        output.copy_from_slice(&lent);
    }
    answer
}

fn says_budget(stretch: &Stretch, output: &mut [u8], pause: &mut [u8]) -> Answer {
    let answer = second::stretch(stretch, output, pause);
    if answer.number == 17 && answer.steps > stretch.budget {
        pause[..4].copy_from_slice(&stretch.budget.to_le_bytes());
    }
    answer
}

/// The labels on a sheet, as many as it can hold.
fn labels_of(pause: &mut [u8]) -> &mut [u8] {
    let length = pause
        .get(Place::LENGTH)
        .map_or(0, |length| usize::from(*length));
    let labels = pause.get_mut(Place::HEAD + length..Place::HEAD + 2 * length);
    labels.unwrap_or_default()
}

fn top_of(stretch: &Stretch) -> u8 {
    store_in(&stretch.store).map_or(0, |store| store.table.lattice.top())
}

fn count_in(slot: &[u8]) -> u32 {
    let count = slot[Value::WIDTH..].try_into();
    u32::from_le_bytes(count.expect("four bytes"))
}

fn without_counts(output: &mut [u8]) {
    let slots = output.chunks_exact_mut(Record::WIDTH);
    slots.for_each(|slot| slot[Value::WIDTH..].fill(0));
}

/// The same path without its last entry.
fn without_last(pause: &mut [u8]) {
    let length = usize::from(pause[Place::LENGTH]);
    if length > 0 {
        let end = Place::HEAD + 2 * length;
        pause[Place::LENGTH] -= 1;
        pause.copy_within(Place::HEAD + length..end - 1, Place::HEAD + length - 1);
        pause[end - 2..end].fill(0);
    }
}
