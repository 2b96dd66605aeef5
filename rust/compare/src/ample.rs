//! Runs that have enough of everything: how far they go.

use crate::answers::Answer;
use crate::calls::Run;
use crate::journals::Writes;
use crate::outputs::{output_length, writes_in};
use crate::second;
use crate::steps::Followed;

/// Budget enough for any run here that ends, and entries enough for that budget.
pub const AMPLE: u32 = 3_000;

/// A run with enough budget and entries and the output that the store sheet asks
/// for.
pub fn plain_run(store: &[u8], programme: &[u8], rule: u32) -> Run {
    Run {
        store: store.to_vec(),
        programme: programme.to_vec(),
        rule,
        budget: AMPLE,
        output_length: wanted_output(store),
        journal_length: AMPLE as usize,
    }
}

/// The output's length by the size on the sheet, however long the sheet is.
fn wanted_output(store: &[u8]) -> usize {
    match store {
        [_, low, high, ..] => output_length(usize::from(u16::from_le_bytes([*low, *high]))),
        _ => 0,
    }
}

/// What a run comes to that has enough.
#[derive(Debug, Clone, Copy)]
pub struct Ample {
    pub answer: Answer,
    /// The writes that it makes, where that is known.
    pub writes: Option<usize>,
}

/// Entries to lend where nobody looks at them afterwards.
#[derive(Debug, Default)]
pub struct Spare(Vec<second_runner::Entry>);

impl Ample {
    pub fn of(run: &Run, Spare(entries): &mut Spare) -> Ample {
        let mut output = vec![0; run.output_length];
        entries.resize(run.journal_length, Default::default());
        let answer = second::run_with(run, &mut output, entries);
        let writes = match answer.number {
            0 => writes_in(&output),
            13..=16 => writes_before(run, answer),
            _ => None,
        };
        Ample { answer, writes }
    }

    /// Whether blocks ran, up to their end or a refusal.
    pub fn took_place(&self) -> bool {
        matches!(self.answer.number, 0 | 13..=16)
    }
}

/// The writes ahead of the step by which a run is refused, unless there are too
/// many steps to follow.
fn writes_before(run: &Run, answer: Answer) -> Option<usize> {
    let followed = Followed::of(run, answer)?;
    let mut writes = Writes::of(&followed);
    followed.play(&mut writes);
    followed.is_whole().then_some(writes.made)
}

#[cfg(test)]
mod tests {
    use super::*;
    use crate::outputs::Record;

    #[test]
    fn the_length_of_the_output_follows_the_sheet() {
        assert_eq!(wanted_output(&[]), 0);
        assert_eq!(wanted_output(&[1, 2, 0]), 2 * Record::WIDTH);
        assert_eq!(wanted_output(&[1, 0, 1, 9]), 256 * Record::WIDTH);
    }
}
