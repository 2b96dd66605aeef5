//! Values: what a slot holds and what a literal says.

use std::fmt::{self, Display, Formatter};

/// The integers of a payload: "Integers are signed 64-bit." A payload is as
/// wide as they are, so its width stands here alone.
pub type Integer = i64;

/// What a slot holds.
#[derive(Debug, Clone, Copy, PartialEq, Eq)]
pub enum Value {
    /// A signed integer.
    Integer(Integer),
    /// A truth value.
    Truth(bool),
    /// A view through which this slot may be read.
    ReadView(u8),
    /// A view through which this slot may be written.
    WriteView(u8),
}

impl Value {
    /// The bytes of a payload.
    pub const PAYLOAD_BYTES: usize = size_of::<Integer>();
    /// The bytes of a value, in sheets, code and output: its kind and payload.
    pub const BYTES: usize = 1 + Value::PAYLOAD_BYTES;
    /// The kind byte of an integer.
    pub const INTEGER: u8 = 0;
    /// The kind byte of a truth value.
    pub const TRUTH: u8 = 1;
    /// The kind byte of a read view.
    pub const READ_VIEW: u8 = 2;
    /// The kind byte of a write view.
    pub const WRITE_VIEW: u8 = 3;

    /// The kind byte and the payload, lowest byte first.
    pub fn to_bytes(self) -> [u8; Value::BYTES] {
        let (kind, payload) = match self {
            Value::Integer(integer) => (Value::INTEGER, integer),
            Value::Truth(truth) => (Value::TRUTH, Integer::from(truth)),
            Value::ReadView(slot) => (Value::READ_VIEW, Integer::from(slot)),
            Value::WriteView(slot) => (Value::WRITE_VIEW, Integer::from(slot)),
        };
        let mut bytes = [kind; Value::BYTES];
        bytes[1..].copy_from_slice(&payload.to_le_bytes());
        bytes
    }

    /// The value that these bytes are, unless they are too few or too many, or
    /// ill-formed. A view's slot need only be one that some store has.
    pub fn from_bytes(bytes: &[u8]) -> Option<Value> {
        let (kind, payload) = bytes.split_first()?;
        let payload = u64::from_le_bytes(payload.try_into().ok()?);
        Value::from_parts(*kind, payload)
    }

    /// The value of a kind byte and all bits of a payload, unless ill-formed.
    pub fn from_parts(kind: u8, payload: u64) -> Option<Value> {
        match kind {
            Value::INTEGER => Some(Value::Integer(payload.cast_signed())),
            Value::TRUTH if payload <= 1 => Some(Value::Truth(payload == 1)),
            Value::READ_VIEW => u8::try_from(payload).ok().map(Value::ReadView),
            Value::WRITE_VIEW => u8::try_from(payload).ok().map(Value::WriteView),
            _ => None,
        }
    }
}

/// The value in words, such as `integer 42`.
impl Display for Value {
    fn fmt(&self, out: &mut Formatter) -> fmt::Result {
        match self {
            Value::Integer(integer) => write!(out, "integer {integer}"),
            Value::Truth(truth) => write!(out, "truth value {truth}"),
            Value::ReadView(slot) => write!(out, "read view of slot {slot}"),
            Value::WriteView(slot) => write!(out, "write view of slot {slot}"),
        }
    }
}

#[cfg(test)]
mod tests {
    use super::*;

    /// "A payload becomes 8 bytes and a value 9", the lowest byte first.
    #[test]
    fn values_stand_in_bytes_as_the_documents_have_them() {
        let (minus_two, least) = (Value::Integer(-2), Value::Integer(Integer::MIN));
        let known = [
            (minus_two, [0, 254, 255, 255, 255, 255, 255, 255, 255]),
            (least, [0, 0, 0, 0, 0, 0, 0, 0, 128]),
            (Value::Integer(1 << 32), [0, 0, 0, 0, 0, 1, 0, 0, 0]),
            (Value::Truth(false), [1, 0, 0, 0, 0, 0, 0, 0, 0]),
            (Value::Truth(true), [1, 1, 0, 0, 0, 0, 0, 0, 0]),
            (Value::ReadView(7), [2, 7, 0, 0, 0, 0, 0, 0, 0]),
            (Value::WriteView(255), [3, 255, 0, 0, 0, 0, 0, 0, 0]),
        ];
        for (value, bytes) in known {
            assert_eq!(value.to_bytes(), bytes);
            assert_eq!(Value::from_bytes(&bytes), Some(value));
        }
    }

    #[test]
    fn every_integer_comes_back() {
        let ends = [Integer::MIN, Integer::MIN + 1, -1, 0, 1, Integer::MAX];
        for value in ends.map(Value::Integer) {
            assert_eq!(Value::from_bytes(&value.to_bytes()), Some(value));
        }
    }

    #[test]
    fn bytes_that_are_too_few_or_too_many_are_no_value() {
        for length in 0..2 * Value::BYTES {
            let value = (length == Value::BYTES).then_some(Value::Integer(0));
            assert_eq!(Value::from_bytes(&vec![0; length]), value, "{length}");
        }
    }

    /// Of truth values and views every byte of the payload counts.
    #[test]
    fn ill_formed_bytes_are_no_value() {
        for value in [
            Value::Truth(true),
            Value::ReadView(0),
            Value::WriteView(255),
        ] {
            for place in 2..Value::BYTES {
                let mut bytes = value.to_bytes();
                bytes[place] = 0x80;
                assert_eq!(Value::from_bytes(&bytes), None, "{bytes:?}");
            }
        }
        let mut neither = Value::Truth(true).to_bytes();
        neither[1] = 2;
        assert_eq!(Value::from_bytes(&neither), None);
        let mut unknown = Value::WriteView(0).to_bytes();
        unknown[0] += 1;
        assert_eq!(Value::from_bytes(&unknown), None);
    }
}
