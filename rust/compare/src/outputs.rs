//! Outputs: what a finished run says of each slot.

use crate::values::Value;

/// A slot as the output has it: its value, and the count of its writes.
#[derive(Debug, Clone, Copy, PartialEq, Eq)]
pub struct Record {
    pub value: Value,
    pub count: u32,
}

impl Record {
    const COUNT: usize = size_of::<u32>();
    /// "output gains 4 bytes of it after each value, so a slot takes 13 bytes"
    /// (document 02, N7)
    pub const WIDTH: usize = Value::WIDTH + Record::COUNT;

    /// The record that these bytes are, if they are good.
    pub fn in_bytes(bytes: &[u8]) -> Option<Record> {
        let (value, count) = bytes.split_at_checked(Value::WIDTH)?;
        Some(Record {
            value: Value::in_bytes(value)?,
            count: u32::from_le_bytes(count.try_into().ok()?),
        })
    }

    #[cfg(test)]
    pub fn bytes(self) -> Vec<u8> {
        [&self.value.bytes()[..], &self.count.to_le_bytes()].concat()
    }
}

/// The bytes of the output for so many slots.
pub fn output_length(slots: usize) -> usize {
    slots * Record::WIDTH
}

/// The bytes of each slot.
pub fn slots_of(output: &[u8]) -> impl Iterator<Item = &[u8]> {
    output.chunks_exact(Record::WIDTH)
}

/// The records of a good output.
pub fn records_in(output: &[u8]) -> Option<Vec<Record>> {
    slots_of(output).map(Record::in_bytes).collect()
}

/// How many writes the counts of a good output come to.
pub fn writes_in(output: &[u8]) -> Option<usize> {
    let records = records_in(output)?;
    Some(records.iter().map(|record| record.count as usize).sum())
}

#[cfg(test)]
mod tests {
    use super::*;

    #[test]
    fn counts_stand_behind_values() {
        let one = Record {
            value: Value::Integer(-2),
            count: 0x0403_0201,
        };
        let other = Record {
            value: Value::WriteView(7),
            count: 5,
        };
        let known = [
            0, 0xFE, 0xFF, 0xFF, 0xFF, 0xFF, 0xFF, 0xFF, 0xFF, 1, 2, 3, 4, //
            3, 7, 0, 0, 0, 0, 0, 0, 0, 5, 0, 0, 0,
        ];
        let output = [one.bytes(), other.bytes()].concat();
        assert_eq!(output, known);
        assert_eq!(output.len(), output_length(2));
        assert_eq!(records_in(&known), Some(vec![one, other]));
        assert_eq!(writes_in(&known), Some(0x0403_0206));
    }

    #[test]
    fn other_bytes_are_no_record() {
        let good = Record {
            value: Value::Truth(true),
            count: u32::MAX,
        };
        let bytes = good.bytes();
        assert_eq!(Record::in_bytes(&bytes), Some(good));
        assert_eq!(Record::in_bytes(&bytes[1..]), None);
        assert_eq!(Record::in_bytes(&[bytes, vec![0]].concat()), None);
        assert_eq!(Record::in_bytes(&[1; Record::WIDTH]), None);
    }
}
