//! Truth values and views that are ill-formed by their high bytes alone: whose
//! low bytes would be good, were they the payload.

use crate::answers::Answer;
use crate::calls::Call;
use crate::layout::Layout;
use crate::random::Random;
use crate::values::{Kind, Value};

const HIGH: usize = Value::PAYLOAD - Value::LOW;
/// The kinds whose payloads can be ill-formed.
const KINDS: [Kind; 3] = [Kind::Truth, Kind::ReadView, Kind::WriteView];

/// Sets high bytes of a payload: one, or all as a sign would fill them, or any.
pub fn set_high_bytes(random: &mut Random, payload: &mut [u8]) {
    let high = &mut payload[Value::LOW..];
    match random.below(5) {
        0..=2 => high[random.below(HIGH)] = random.pick(&[1, 0x80, 0xFF]),
        3 => high.fill(0xFF),
        _ => high.fill_with(|| random.byte()),
    }
}

/// The values for which sheets of one sort were refused, by kind, and by which
/// of their high bytes was set: the first so many by that one, the last by
/// several.
#[derive(Debug, Clone, Copy, Default)]
struct Counts {
    kinds: [u64; KINDS.len()],
    bytes: [u64; HIGH + 1],
}

impl Counts {
    fn count(&mut self, value: &[u8]) {
        let kinds = self.kinds.iter_mut().zip(KINDS);
        kinds
            .filter(|(_, kind)| *kind as u8 == value[0])
            .for_each(|(count, _)| *count += 1);
        let set: Vec<usize> = (0..HIGH).filter(|byte| high(value)[*byte] != 0).collect();
        let column = match set.as_slice() {
            [byte] => *byte,
            _ => HIGH,
        };
        self.bytes[column] += 1;
    }
}

/// How many calls were refused for high bytes alone: by 5 for a value of the
/// store sheet, by 9 for a literal.
#[derive(Debug, Clone, Copy, Default)]
pub struct HighBytes {
    stores: Counts,
    literals: Counts,
}

impl HighBytes {
    const ILL_FORMED_VALUE: u32 = 5;
    const ILL_FORMED_CODE: u32 = 9;

    /// Counts a call if it is refused so.
    pub fn count(&mut self, call: &Call, answer: Answer) {
        let (found, counts) = match answer.number {
            HighBytes::ILL_FORMED_VALUE => (in_store(call, answer), &mut self.stores),
            HighBytes::ILL_FORMED_CODE => (in_literal(call, answer), &mut self.literals),
            _ => return,
        };
        if let Some(value) = found {
            counts.count(value);
        }
    }

    fn rows(&self) -> [(&'static str, Counts); 2] {
        [("store (5)", self.stores), ("literal (9)", self.literals)]
    }

    /// The names of the columns.
    fn columns() -> Vec<String> {
        let kinds = KINDS.map(|kind| format!("{kind:?}"));
        let bytes = (Value::LOW..Value::PAYLOAD).map(|byte| format!("byte {byte}"));
        let several = ["several".to_string()];
        kinds.into_iter().chain(bytes).chain(several).collect()
    }

    fn cells(counts: Counts) -> impl Iterator<Item = u64> {
        counts.kinds.into_iter().chain(counts.bytes)
    }

    /// The counts, line by line.
    pub fn lines(&self) -> Vec<String> {
        let names = HighBytes::columns().into_iter();
        let heading: String = names.map(|name| format!("{name:>11}")).collect();
        let heading = format!("{:<24}{heading}", "ill-formed, high bytes");
        let rows = self.rows().map(|(name, counts)| {
            let cells = HighBytes::cells(counts).map(|count| format!("{count:>11}"));
            format!("{name:<24}{}", cells.collect::<String>())
        });
        [heading].into_iter().chain(rows).collect()
    }

    /// What never came up, in words.
    pub fn complaints(&self) -> Vec<String> {
        let rows = self.rows().into_iter().flat_map(|(name, counts)| {
            let cells = HighBytes::columns()
                .into_iter()
                .zip(HighBytes::cells(counts));
            let missing = cells.filter(|(_, count)| *count == 0);
            missing.map(move |(column, _)| {
                format!("{name}: ill-formed by high bytes alone, {column} never came up")
            })
        });
        rows.collect()
    }
}

/// The high bytes of a value's payload.
fn high(value: &[u8]) -> &[u8] {
    &value[1 + Value::LOW..]
}

/// The value of a store sheet by whose high bytes alone it is refused.
fn in_store(call: &Call, answer: Answer) -> Option<&[u8]> {
    let sheet = call.store()?;
    let slots = usize::from(u16::from_le_bytes([*sheet.get(1)?, *sheet.get(2)?]));
    let first = sheet.len().checked_sub(slots * Value::WIDTH)?;
    let mut places = (0..slots).map(|slot| first + slot * Value::WIDTH);
    places.find_map(|place| {
        let value = with_high_bytes(sheet, place)?;
        let cleared = call.with_store(without_high_bytes(sheet, place));
        (cleared.second().answer != answer).then_some(value)
    })
}

/// The literal by whose high bytes alone the code is refused, at its kind byte.
fn in_literal(call: &Call, answer: Answer) -> Option<&[u8]> {
    let sheet = call.programme()?;
    let place = Layout::of(sheet)?.start(sheet, answer.block) + answer.offset;
    let value = with_high_bytes(sheet, place)?;
    let cleared = call.with_programme(without_high_bytes(sheet, place));
    (cleared.second().answer != answer).then_some(value)
}

/// The bytes at this place, if they can be a truth value or a view with high
/// bytes set.
fn with_high_bytes(sheet: &[u8], place: usize) -> Option<&[u8]> {
    let value = sheet.get(place..place + Value::WIDTH)?;
    let known = KINDS.iter().any(|kind| *kind as u8 == value[0]);
    let set = high(value).iter().any(|byte| *byte != 0);
    (known && set).then_some(value)
}

fn without_high_bytes(sheet: &[u8], place: usize) -> Vec<u8> {
    let mut sheet = sheet.to_vec();
    sheet[place + 1 + Value::LOW..place + Value::WIDTH].fill(0);
    sheet
}

#[cfg(test)]
mod tests {
    use super::*;
    use crate::code::{programme_sheet, Block, Command};
    use crate::expressions::Expression;
    use crate::sheets::{plain_store, Store};

    const PLACE: usize = 1;

    /// A store with this value in the second of its three slots.
    fn store_with(value: Value) -> Store {
        let mut store = plain_store(2, 3);
        store.values[PLACE] = value;
        store
    }

    fn check_of(value: Value, change: impl Fn(&mut [u8])) -> Call {
        let mut sheet = store_with(value).bytes();
        let behind = sheet.len() - PLACE * Value::WIDTH;
        change(&mut sheet[behind - Value::PAYLOAD..behind]);
        Call::CheckStore { sheet }
    }

    fn literal_check_of(value: Value, change: impl Fn(&mut [u8])) -> Call {
        let block = Block::plain(0, Command::set(0, Expression::literal(value)));
        let mut sheet = programme_sheet(&[block]).bytes;
        let first = sheet.len() - Value::PAYLOAD;
        change(&mut sheet[first..]);
        Call::CheckProgramme {
            sheet,
            principals: 2,
            slots: 3,
        }
    }

    /// What is counted of the two checks of a value that is changed so.
    fn counted(value: Value, change: impl Fn(&mut [u8])) -> HighBytes {
        let mut counted = HighBytes::default();
        for call in [check_of(value, &change), literal_check_of(value, &change)] {
            counted.count(&call, call.second().answer);
        }
        counted
    }

    fn total(counts: Counts) -> u64 {
        counts.kinds.iter().sum()
    }

    #[test]
    fn values_that_their_high_bytes_refuse_are_counted() {
        let values = [Value::Truth(true), Value::ReadView(2), Value::WriteView(0)];
        for (kind, value) in values.into_iter().enumerate() {
            for byte in 0..HIGH {
                let changed = counted(value, |payload| payload[Value::LOW + byte] = 1);
                for (name, counts) in changed.rows() {
                    assert_eq!(counts.kinds[kind], 1, "{name}: {value:?}");
                    assert_eq!(counts.bytes[byte], 1, "{name}: {value:?}");
                }
            }
            let changed = counted(value, |payload| payload[Value::LOW..].fill(0xFF));
            assert!(changed.rows().iter().all(|(_, row)| row.bytes[HIGH] == 1));
        }
    }

    #[test]
    fn values_that_are_good_or_ill_formed_besides_are_not_counted() {
        let unchanged = |_: &mut [u8]| ();
        let in_low_bytes = |payload: &mut [u8]| payload[Value::LOW - 1] = 1;
        let in_both = |payload: &mut [u8]| payload[Value::LOW - 1..].fill(1);
        for changed in [
            counted(Value::ReadView(2), unchanged),
            counted(Value::ReadView(2), in_low_bytes),
            counted(Value::ReadView(2), in_both),
            counted(Value::Integer(2), in_both),
        ] {
            assert!(changed.rows().iter().all(|(_, row)| total(*row) == 0));
            assert_eq!(changed.complaints().len(), 2 * HighBytes::columns().len());
        }
    }

    #[test]
    fn set_high_bytes_leaves_the_low_ones() {
        let mut random = Random::of_case(18, 0);
        for _ in 0..200 {
            let mut payload = [0; Value::PAYLOAD];
            set_high_bytes(&mut random, &mut payload);
            assert_eq!(payload[..Value::LOW], [0; Value::LOW]);
            assert_ne!(payload[Value::LOW..], [0; HIGH]);
        }
    }
}
