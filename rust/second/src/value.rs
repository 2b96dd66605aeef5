//! Values: what a slot holds and what a literal says.

use crate::bytes::number;

/// "Integers are signed 64-bit." (document 02, N3) A payload is exactly as wide
/// as they are, so its width stands here alone.
pub(crate) type Integer = i64;

/// A slot of the store; only made for a number below the number of slots.
#[derive(Debug, Clone, Copy, PartialEq, Eq)]
pub(crate) struct SlotNumber(u8);

impl SlotNumber {
    /// The slot with this number, if there is one among `slots` slots.
    fn among(number: u64, slots: usize) -> Option<SlotNumber> {
        let small = u8::try_from(number).ok()?;
        (usize::from(small) < slots).then_some(SlotNumber(small))
    }

    pub fn index(self) -> usize {
        usize::from(self.0)
    }
}

/// The kind byte of a value.
#[derive(Debug, Clone, Copy, PartialEq, Eq)]
pub(crate) enum Kind {
    Integer = 0,
    Truth = 1,
    ReadView = 2,
    WriteView = 3,
}

impl Kind {
    const ALL: [Kind; 4] = [Kind::Integer, Kind::Truth, Kind::ReadView, Kind::WriteView];

    pub fn from_byte(byte: u8) -> Option<Kind> {
        Kind::ALL.into_iter().find(|kind| kind.byte() == byte)
    }

    pub fn byte(self) -> u8 {
        self as u8
    }
}

#[derive(Debug, Clone, Copy, PartialEq, Eq)]
pub(crate) enum Value {
    Integer(Integer),
    Truth(bool),
    ReadView(SlotNumber),
    WriteView(SlotNumber),
}

impl Value {
    pub const PAYLOAD_BYTES: usize = size_of::<Integer>();
    /// "A payload becomes 8 bytes and a value 9, in sheets, code and output."
    /// (document 02, N3)
    pub const BYTES: usize = 1 + Value::PAYLOAD_BYTES;

    /// The value these bytes say, unless they are ill-formed.
    pub fn from_bytes(bytes: &[u8], slots: usize) -> Option<Value> {
        let (kind, payload) = bytes.split_first()?;
        Value::from_payload(Kind::from_byte(*kind)?, payload, slots)
    }

    /// The value of a known kind, unless its payload is ill-formed: a truth
    /// value has payload 0 or 1, a view names a slot below the number of slots.
    pub fn from_payload(kind: Kind, payload: &[u8], slots: usize) -> Option<Value> {
        let content = number(payload);
        match kind {
            // The cast keeps the payload's bits: signed, two's complement.
            Kind::Integer => Some(Value::Integer(content as Integer)),
            Kind::Truth => match content {
                0 => Some(Value::Truth(false)),
                1 => Some(Value::Truth(true)),
                _ => None,
            },
            Kind::ReadView => SlotNumber::among(content, slots).map(Value::ReadView),
            Kind::WriteView => SlotNumber::among(content, slots).map(Value::WriteView),
        }
    }

    pub fn kind(self) -> Kind {
        match self {
            Value::Integer(_) => Kind::Integer,
            Value::Truth(_) => Kind::Truth,
            Value::ReadView(_) => Kind::ReadView,
            Value::WriteView(_) => Kind::WriteView,
        }
    }

    /// The payload as one number; only an integer's can be negative.
    pub fn payload(self) -> Integer {
        match self {
            Value::Integer(integer) => integer,
            Value::Truth(truth) => Integer::from(truth),
            Value::ReadView(slot) | Value::WriteView(slot) => Integer::from(slot.0),
        }
    }

    pub fn to_bytes(self) -> [u8; Value::BYTES] {
        let mut bytes = [0; Value::BYTES];
        bytes[0] = self.kind().byte();
        bytes[1..].copy_from_slice(&self.payload().to_le_bytes());
        bytes
    }
}
