//! Both runners, called alike.

use muntyzhap::raw;
use muntyzhap::sheet::{Slot, MOST_SLOTS};
use muntyzhap::MOST_BUDGET;
use second_runner::Answer;

/// One call of a runner.
#[derive(Debug, Clone, Copy)]
pub struct Call<'a> {
    pub store: &'a [u8],
    pub programme: &'a [u8],
    pub rule: u32,
    pub budget: u32,
    /// The bytes of the output.
    pub output: usize,
    /// The entries of the journal.
    pub journal: usize,
}

pub type Runner = fn(Call, &mut Lent) -> Answer;

/// The proved runner first.
pub const RUNNERS: [Runner; 2] = [proved, second];

/// The most entries of a journal that can be filled.
pub const MOST_ENTRIES: usize = MOST_BUDGET as usize;

/// What runs are lent: an output as long as any, and for each runner a journal
/// as long as any can use. It is made once and lent to every run, so that none
/// has to wait for fresh memory.
pub struct Lent {
    output: Vec<u8>,
    proved: Vec<raw::Entry>,
    second: Vec<second_runner::Entry>,
}

/// A journal's entry, whosever it is: block, offset and slot, then kind and
/// payload before and after.
type Told = ([usize; 3], [(u8, u64); 2]);

impl Lent {
    const UNTOUCHED: u8 = 0xA5;

    pub fn new() -> Lent {
        Lent {
            output: vec![Lent::UNTOUCHED; MOST_SLOTS * Slot::BYTES],
            proved: vec![raw::Entry::default(); MOST_ENTRIES],
            second: vec![second_runner::Entry::default(); MOST_ENTRIES],
        }
    }

    /// The output's bytes that a call is lent.
    pub fn output(&self, call: Call) -> &[u8] {
        &self.output[..call.output]
    }

    /// The same before any run.
    pub fn clear(&mut self) {
        self.output.fill(Lent::UNTOUCHED);
        self.proved.fill(raw::Entry::default());
        self.second.fill(second_runner::Entry::default());
    }

    /// Whether the journals of both runners hold the same.
    pub fn same_journals(&self) -> bool {
        let (proved, second) = (self.proved.iter(), self.second.iter());
        proved.map(told_by_proved).eq(second.map(told_by_second))
    }
}

fn told_by_proved(entry: &raw::Entry) -> Told {
    let values = [entry.old_value, entry.new_value];
    (
        [entry.block, entry.offset, entry.slot],
        values.map(|value| (value.kind, value.payload)),
    )
}

fn told_by_second(entry: &second_runner::Entry) -> Told {
    let values = [entry.old, entry.new];
    (
        [entry.block, entry.offset, entry.slot],
        values.map(|value| (value.kind, value.payload)),
    )
}

/// One run by the proved runner, answered as the second one does.
fn proved(call: Call, lent: &mut Lent) -> Answer {
    let (output, journal) = (
        &mut lent.output[..call.output],
        &mut lent.proved[..call.journal],
    );
    let answer = raw::run(
        call.store,
        call.programme,
        call.rule,
        call.budget,
        output,
        journal,
    );
    Answer {
        number: answer.number,
        block: narrow(answer.block),
        offset: narrow(answer.offset),
        steps: answer.steps,
    }
}

/// A place past 32 bits becomes one that no answer has.
fn narrow(place: usize) -> u32 {
    u32::try_from(place).unwrap_or(u32::MAX)
}

fn second(call: Call, lent: &mut Lent) -> Answer {
    let (output, journal) = (
        &mut lent.output[..call.output],
        &mut lent.second[..call.journal],
    );
    second_runner::run(
        call.store,
        call.programme,
        call.rule,
        call.budget,
        output,
        journal,
    )
}
