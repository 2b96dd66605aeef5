//! A run that is refused does not leave what was lent as it was.

use crate::answers::Answer;
use crate::calls::{Run, Runner};
use crate::journals::{as_entries, Words};
use crate::second;
use second_runner::Entry;

pub const ALL: [(&str, Runner); 4] = [
    (
        "an entry is stored before the run is known to finish",
        stores_early,
    ),
    ("a journal that is full is kept", keeps_what_is_full),
    (
        "an entry is put back by its fields, without its padding",
        loses_padding,
    ),
    (
        "the output is written although the journal is full",
        writes_output,
    ),
];

fn stores_early(run: &Run, output: &mut [u8], journal: &mut [Words]) -> Answer {
    let answer = second::run(run, output, journal);
    if let (13..=17, 1.., [first, ..]) = (answer.number, answer.steps, as_entries(journal)) {
        *first = Entry::default();
    }
    answer
}

fn keeps_what_is_full(run: &Run, output: &mut [u8], journal: &mut [Words]) -> Answer {
    let answer = second::run(run, output, journal);
    if answer.number == 18 {
        as_entries(journal).fill(Entry::default());
    }
    answer
}

fn loses_padding(run: &Run, output: &mut [u8], journal: &mut [Words]) -> Answer {
    let answer = second::run(run, output, journal);
    if let (13..=18, [.., last]) = (answer.number, journal) {
        let [.., kind, _] = last;
        *kind &= 0xFF;
    }
    answer
}

fn writes_output(run: &Run, output: &mut [u8], journal: &mut [Words]) -> Answer {
    let answer = second::run(run, output, journal);
    if let (18, [.., last]) = (answer.number, output) {
        *last = 0;
    }
    answer
}
