//! The output of a run: 13 bytes a slot, its value and its count.

use crate::value::VALUE;
use crate::{join, Bytes};

/// The widths of a count and of a slot. "output gains 4 bytes of it after each
/// value, so a slot takes 13 bytes" (document 02, N7)
pub const COUNT: usize = size_of::<u32>();
pub const OUTPUT_SLOT: usize = VALUE + COUNT;

/// A slot at the end of a run: what it holds, and "a count of its writes".
#[derive(Debug, Clone, PartialEq, Eq)]
pub struct EndSlot {
    pub value: Bytes,
    pub writes: u32,
}

/// A slot that was written so many times.
pub fn written(writes: u32, value: Bytes) -> EndSlot {
    EndSlot { value, writes }
}

/// A slot that was written once.
pub fn once(value: Bytes) -> EndSlot {
    written(1, value)
}

/// A slot that was not written: its count is "0 at opening".
pub fn kept(value: Bytes) -> EndSlot {
    written(0, value)
}

/// The output of a run that ends with these slots.
pub fn output(end: &[EndSlot]) -> Bytes {
    let slot = |slot: &EndSlot| join(&[&slot.value, &slot.writes.to_le_bytes()]);
    end.iter().flat_map(slot).collect()
}

/// The slots that an output shows.
pub fn end_slots(output: &[u8]) -> Vec<EndSlot> {
    let slot = |bytes: &[u8]| {
        let (value, count) = bytes.split_at(VALUE);
        let writes = u32::from_le_bytes(count.try_into().expect("a count of four bytes"));
        written(writes, value.to_vec())
    };
    output.chunks(OUTPUT_SLOT).map(slot).collect()
}

#[cfg(test)]
mod tests {
    use super::*;
    use crate::{hex, integer, truth};

    /// Nine bytes and four, slot by slot; "the lowest byte first".
    #[test]
    fn a_slot_s_count_stands_after_its_value() {
        let end = [
            kept(integer(5)),
            once(truth(true)),
            written(0x0403_0201, integer(-1)),
        ];
        let bytes = "000500000000000000 00000000 010100000000000000 01000000 \
            00FFFFFFFFFFFFFFFF 01020304";
        assert_eq!(output(&end), hex(bytes));
        assert_eq!(end_slots(&hex(bytes)), end);
        assert_eq!(OUTPUT_SLOT, 13);
    }
}
