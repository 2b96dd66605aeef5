//! What the printing program prints: "`end NUMBER block BLOCK at OFFSET steps
//! STEPS`, then for each slot its number, owner, kind and payload [..] its count of
//! writes, and how many principals stand at or above its owner [..] A last line is
//! the total of writes" (README, `Formats`). "A refusal prints line 1 only."

use model::order::at_or_below;
use muntyzhap::raw::Answer;
use muntyzhap::sheet::{end_store, Slot};
use muntyzhap::{Integer, Value};

use crate::call::Came;

/// The entries of the journal that the printing program lends.
pub const LENT_ENTRIES: usize = 512;

/// What is said where they are not enough.
pub fn lent() -> String {
    format!(
        "the journal is full: the printing program lends {LENT_ENTRIES} entries; --entries N lends more"
    )
}

/// The first line.
pub fn answer(answer: &Answer) -> String {
    let Answer {
        number,
        block,
        offset,
        steps,
    } = answer;
    format!("end {number} block {block} at {offset} steps {steps}\n")
}

/// The whole text, of a run over this store sheet.
pub fn printed(store: &[u8], came: &Came) -> String {
    let first = answer(&came.answer);
    match came.finished() {
        true => first + &end(store, &came.left.out),
        false => first,
    }
}

/// The lines after the first, of a run that finished.
fn end(store: &[u8], out: &[u8]) -> String {
    let masks = inspect::store_model(store).unwrap_or_default().masks;
    let slots = end_store(store, out).unwrap_or_default();
    let lines = slots.iter().enumerate();
    let lines = lines.map(|(number, slot)| line(number, slot, &masks));
    let writes = slots.iter().map(|slot| u64::from(slot.writes()));
    let total: u64 = writes.sum();
    lines.collect::<String>() + &format!("{total}\n")
}

fn line(number: usize, slot: &Slot, masks: &[u32]) -> String {
    let (kind, payload) = kind_and_payload(slot.value());
    let (owner, writes) = (slot.owner(), slot.writes());
    let upper = (0..masks.len()).filter(|upper| at_or_below(masks, owner.into(), *upper));
    let above = upper.count();
    format!("{number} {owner} {kind} {payload} {writes} {above}\n")
}

fn kind_and_payload(value: Value) -> (u8, Integer) {
    match value {
        Value::Integer(integer) => (Value::INTEGER, integer),
        Value::Truth(truth) => (Value::TRUTH, truth.into()),
        Value::ReadView(slot) => (Value::READ_VIEW, slot.into()),
        Value::WriteView(slot) => (Value::WRITE_VIEW, slot.into()),
    }
}

#[cfg(test)]
mod tests {
    use super::*;
    use crate::call::{Call, Way};

    /// What is printed of these sheets in one, as the command does.
    fn by_command(sheets: &[u8], rule: u32, budget: u32) -> String {
        let (store, programme) = inspect::split(sheets);
        let call = Call {
            store,
            programme,
            rule,
            budget,
            way: Way::Journalled(LENT_ENTRIES),
        };
        printed(store, &call.by_library())
    }

    /// The second runner prints what the printing program does, of good sheets and
    /// of sheets with any byte changed.
    #[test]
    fn the_second_runner_prints_the_same() {
        let text = "principals low < a, b < top slot x : a = write y slot y : top = true slot z : low = -5\n\
                    block a { x := write x } block top { if y { z := z + 7 } else { [x] := read z } }";
        let good = notation::assemble(text).expect("a text");
        let good = [good.store, good.programme].into_iter().flatten().flatten();
        let good: Vec<u8> = good.collect();
        let mut finished = 0;
        for (place, byte) in
            (0..good.len()).flat_map(|place| (0..16).map(move |byte| (place, byte * 17)))
        {
            let mut sheets = good.clone();
            sheets[place] = byte;
            for rule in [0, 3] {
                let input = [&[rule, 10, 0, 0, 0], &sheets[..]].concat();
                let second = String::from_utf8(second_runner::print(&input)).expect("text");
                assert_eq!(
                    by_command(&sheets, rule.into(), 10),
                    second,
                    "{place} {byte}"
                );
                finished += usize::from(second.starts_with("end 0 "));
            }
        }
        assert!(finished > 100, "{finished}");
    }
}
