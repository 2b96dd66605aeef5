//! A run that finishes leaves other entries or counts.

use crate::answers::Answer;
use crate::calls::{Run, Runner};
use crate::journals::{as_entries, Words};
use crate::layout::Layout;
use crate::outputs::{writes_in, Record};
use crate::second;
use crate::values::Value;
use second_runner::Entry;
use std::mem::swap;

pub const ALL: [(&str, Runner); 9] = [
    ("the entry after the last one is cleared", clears_the_next),
    ("an entry further on is cleared", clears_further_on),
    ("the last entry is left out", leaves_out_the_last),
    ("the first entry is left out", leaves_out_the_first),
    ("old and new are exchanged", exchanges),
    ("the last entry comes first", starts_with_the_last),
    ("the last write is not counted", forgets_the_last),
    (
        "a value that was there is not counted",
        forgets_what_was_there,
    ),
    (
        "places are counted from the first block on",
        counts_on_from_block_0,
    ),
];

pub const CUT: [(&str, Runner); 2] = [
    ("counts are cut to a byte", |run, output, journal| {
        cuts_counts(run, output, journal, 0xFF)
    }),
    ("counts are cut to two bytes", |run, output, journal| {
        cuts_counts(run, output, journal, 0xFFFF)
    }),
];

/// How many entries a run filled that left this output.
fn writes(output: &[u8]) -> usize {
    writes_in(output).expect("a good output")
}

/// The second runner, with what it leaves changed so where it finishes: the output
/// and the entries that are filled.
fn changed(
    run: &Run,
    output: &mut [u8],
    journal: &mut [Words],
    change: impl Fn(&mut [u8], &mut [Entry]),
) -> Answer {
    let answer = second::run(run, output, journal);
    if answer.number == 0 {
        let filled = writes(output);
        change(output, &mut as_entries(journal)[..filled]);
    }
    answer
}

fn change_count(output: &mut [u8], slot: usize, change: impl Fn(u32) -> u32) {
    let slot = &mut output[slot * Record::WIDTH..][..Record::WIDTH];
    let count = Record::in_bytes(slot).expect("a good record").count;
    slot[Value::WIDTH..].copy_from_slice(&change(count).to_le_bytes());
}

fn clears_the_next(run: &Run, output: &mut [u8], journal: &mut [Words]) -> Answer {
    let answer = second::run(run, output, journal);
    if answer.number == 0 {
        let mut free = journal.iter_mut().skip(writes(output));
        free.next().into_iter().for_each(|next| next.fill(0));
    }
    answer
}

fn clears_further_on(run: &Run, output: &mut [u8], journal: &mut [Words]) -> Answer {
    let answer = second::run(run, output, journal);
    if answer.number == 0 {
        let mut free = journal.iter_mut().skip(writes(output));
        free.nth(1).into_iter().for_each(|next| next.fill(0));
    }
    answer
}

fn leaves_out_the_last(run: &Run, output: &mut [u8], journal: &mut [Words]) -> Answer {
    let lent = journal.to_vec();
    let answer = second::run(run, output, journal);
    if answer.number == 0 {
        if let Some(last) = writes(output).checked_sub(1) {
            journal[last] = lent[last];
        }
    }
    answer
}

fn leaves_out_the_first(run: &Run, output: &mut [u8], journal: &mut [Words]) -> Answer {
    let lent = journal.to_vec();
    let answer = second::run(run, output, journal);
    if answer.number == 0 {
        let filled = writes(output);
        journal[..filled].rotate_left(filled.min(1));
        if let Some(last) = filled.checked_sub(1) {
            journal[last] = lent[last];
        }
    }
    answer
}

fn exchanges(run: &Run, output: &mut [u8], journal: &mut [Words]) -> Answer {
    changed(run, output, journal, |_, entries| {
        for Entry { old, new, .. } in entries {
            swap(old, new);
        }
    })
}

fn starts_with_the_last(run: &Run, output: &mut [u8], journal: &mut [Words]) -> Answer {
    changed(run, output, journal, |_, entries| {
        entries.rotate_right(entries.len().min(1));
    })
}

fn forgets_the_last(run: &Run, output: &mut [u8], journal: &mut [Words]) -> Answer {
    changed(run, output, journal, |output, entries| {
        if let [.., last] = entries {
            change_count(output, last.slot, |count| count - 1);
        }
    })
}

fn forgets_what_was_there(run: &Run, output: &mut [u8], journal: &mut [Words]) -> Answer {
    changed(run, output, journal, |output, entries| {
        for entry in entries.iter().filter(|entry| entry.old == entry.new) {
            change_count(output, entry.slot, |count| count - 1);
        }
    })
}

fn counts_on_from_block_0(run: &Run, output: &mut [u8], journal: &mut [Words]) -> Answer {
    changed(run, output, journal, |_, entries| {
        let layout = Layout::of(&run.programme).expect("a good sheet");
        let start = |block| layout.start(&run.programme, block);
        for entry in entries {
            entry.offset += start(entry.block) - start(0);
        }
    })
}

fn cuts_counts(run: &Run, output: &mut [u8], journal: &mut [Words], kept: u32) -> Answer {
    changed(run, output, journal, |output, _| {
        for slot in 0..output.len() / Record::WIDTH {
            change_count(output, slot, |count| count & kept);
        }
    })
}
