//! The printing program: how its input is split, and the lines it prints.

use crate::answer::{Answer, Refusal};
use crate::bytes::{number, take};
use crate::journal::Entry;
use crate::order::{Order, Principal};
use crate::run;
use crate::sheet::{Slot, Store, StoreSizes};

/// The printing program's input, split into what a run takes.
#[derive(Debug, Clone, Copy)]
pub struct Input<'a> {
    rule: u32,
    budget: u32,
    store: &'a [u8],
    programme: &'a [u8],
}

impl<'a> Input<'a> {
    /// "It reads at most 32,768 bytes, more than any good input has."
    pub const MOST_BYTES: usize = 32_768;
    /// "The printing program lends 512 entries." (document 02, N7)
    pub const LENT_ENTRIES: usize = 512;
    const RULE_BYTES: usize = 1;
    const BUDGET_BYTES: usize = 4;

    /// None if there are "fewer than 5 bytes".
    fn split(bytes: &'a [u8]) -> Option<Input<'a>> {
        let mut rest = bytes;
        let rule = number(take(&mut rest, Input::RULE_BYTES)?) as u32;
        let budget = number(take(&mut rest, Input::BUDGET_BYTES)?) as u32;
        // "as long as its sizes say, or all the bytes left where these are
        // fewer or hold no sizes; the rest is programme"
        let said = StoreSizes::from_sheet(rest).map(|sizes| sizes.store_bytes());
        let (store, programme) = said
            .and_then(|length| rest.split_at_checked(length))
            .unwrap_or((rest, &[]));
        Some(Input {
            rule,
            budget,
            store,
            programme,
        })
    }

    /// An output buffer of the length that the sizes on the sheet ask for.
    fn output_buffer(&self) -> Vec<u8> {
        let slots = StoreSizes::from_sheet(self.store).map_or(0, |sizes| sizes.slots);
        vec![0; slots * Slot::OUTPUT_BYTES]
    }
}

/// What the printing program writes for this standard input.
pub fn print(input: &[u8]) -> Vec<u8> {
    let read = input.get(..Input::MOST_BYTES).unwrap_or(input);
    let Some(input) = Input::split(read) else {
        return first_line(Refusal::StoreLength.into()).into_bytes();
    };
    let mut output = input.output_buffer();
    let answer = run(
        input.store,
        input.programme,
        input.rule,
        input.budget,
        &mut output,
        &mut [Entry::default(); Input::LENT_ENTRIES],
    );
    let mut text = first_line(answer);
    // "A refusal prints line 1 only."
    if answer.number == Answer::FINISHED {
        text.push_str(&lines_of_end(input.store, &output));
    }
    text.into_bytes()
}

/// "Line 1: number, block, offset, steps."
fn first_line(answer: Answer) -> String {
    format!(
        "end {} block {} at {} steps {}\n",
        answer.number, answer.block, answer.offset, answer.steps
    )
}

/// The lines after the first, for a run that finished with this output. The
/// table is that of the store sheet, which is good where a run has finished.
fn lines_of_end(store_sheet: &[u8], output: &[u8]) -> String {
    let Ok(Store { table, .. }) = Store::from_sheet(store_sheet) else {
        return String::new();
    };
    let slots: Vec<Slot> = output
        .chunks_exact(Slot::OUTPUT_BYTES)
        .map_while(|bytes| Slot::from_output(bytes, table.slots()))
        .collect();
    let numbered = table.owners().iter().zip(&slots).enumerate();
    let lines: String = numbered
        .map(|(number, (owner, slot))| slot_line(&table.order, number, *owner, slot))
        .collect();
    lines + &last_line(&slots)
}

/// "Then per slot: slot, owner, kind, payload." "each slot's line ends with two
/// more fields, its count and how many principals stand at or above its owner"
/// (document 02, N7)
fn slot_line(order: &Order, number: usize, owner: Principal, slot: &Slot) -> String {
    format!(
        "{number} {} {} {} {} {}\n",
        owner.number(),
        slot.value.kind().byte(),
        slot.value.payload(),
        slot.writes,
        order.principals_at_or_above(owner)
    )
}

/// "a last line is the total of writes" (document 02, N7)
fn last_line(slots: &[Slot]) -> String {
    let total: u32 = slots.iter().map(|slot| slot.writes).sum();
    format!("{total}\n")
}
