//! Values: nine bytes, a kind and a payload.

use crate::{join, Bytes};

/// The widths of a payload, a value and a literal.
pub const PAYLOAD: usize = 8;
pub const VALUE: usize = 1 + PAYLOAD;
pub const LITERAL: usize = 1 + VALUE;
/// The least and the greatest integer that a payload holds.
pub const LEAST: i64 = i64::MIN;
pub const GREATEST: i64 = i64::MAX;
/// Payloads in which one byte is 1 and the others are 0: the first byte of the
/// upper half, and the last byte.
pub const UPPER_HALF: i64 = 1 << (8 * PAYLOAD / 2);
pub const LAST_BYTE: i64 = 1 << (8 * (PAYLOAD - 1));

pub fn value(kind: u8, payload: i64) -> Bytes {
    join(&[&[kind], &payload.to_le_bytes()[..PAYLOAD]])
}

pub fn integer(payload: i64) -> Bytes {
    value(0, payload)
}

pub fn truth(holds: bool) -> Bytes {
    value(1, i64::from(holds))
}

pub fn read_view(slot: i64) -> Bytes {
    value(2, slot)
}

pub fn write_view(slot: i64) -> Bytes {
    value(3, slot)
}

#[cfg(test)]
mod tests {
    use super::*;
    use crate::hex;

    /// "Numbers of several bytes have the lowest byte first."
    #[test]
    fn the_lowest_byte_is_first() {
        assert_eq!(integer(LEAST), hex("00 0000000000000080"));
        assert_eq!(integer(GREATEST), hex("00 FFFFFFFFFFFFFF7F"));
        assert_eq!(integer(1_176_000_000_000), hex("00 00F00FCF11010000"));
        assert_eq!(integer(1 << 32), hex("00 0000000001000000"));
        assert_eq!(integer(-(1 << 31) - 1), hex("00 FFFFFF7FFFFFFFFF"));
        assert_eq!(truth(true), hex("01 0100000000000000"));
        assert_eq!(read_view(LAST_BYTE), hex("02 0000000000000001"));
        assert_eq!(write_view(UPPER_HALF), hex("03 0000000001000000"));
    }
}
