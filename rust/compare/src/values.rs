//! Values: what a slot holds and what a literal says.

use crate::random::Random;

/// "Integers are signed 64-bit." A payload is as wide as they are, so its width
/// stands here alone.
pub type Integer = i64;

/// The ends of the integers, and of those that four bytes hold, with their
/// neighbours: a payload that is cut to four bytes, or filled up by the sign
/// of the fourth, shows there.
pub const ENDS: [Integer; 10] = [
    Integer::MIN,
    Integer::MIN + 1,
    i32::MIN as Integer - 1,
    i32::MIN as Integer,
    i32::MAX as Integer,
    i32::MAX as Integer + 1,
    u32::MAX as Integer,
    u32::MAX as Integer + 1,
    Integer::MAX - 1,
    Integer::MAX,
];

#[derive(Debug, Clone, Copy, PartialEq, Eq)]
pub enum Kind {
    Integer,
    Truth,
    ReadView,
    WriteView,
}

impl Kind {
    pub const ALL: [Kind; 4] = [Kind::Integer, Kind::Truth, Kind::ReadView, Kind::WriteView];
    /// The kind byte that no value has, next after those that are known.
    pub const UNKNOWN: u8 = 4;

    /// Any kind; in a store without slots there are no views.
    pub fn random(random: &mut Random, slots: usize) -> Kind {
        random.pick(if slots == 0 {
            &Kind::ALL[..2]
        } else {
            &Kind::ALL
        })
    }
}

#[derive(Debug, Clone, Copy, PartialEq, Eq)]
pub enum Value {
    Integer(Integer),
    Truth(bool),
    ReadView(u8),
    WriteView(u8),
}

impl Value {
    pub const PAYLOAD: usize = size_of::<Integer>();
    /// "A payload becomes 8 bytes and a value 9, in sheets, code and output."
    pub const WIDTH: usize = 1 + Value::PAYLOAD;
    /// The low bytes of a payload: all that it had before. A reader that still
    /// takes them for the whole misses what the high ones say.
    pub const LOW: usize = 4;

    /// Any value of this kind for a store of so many slots.
    pub fn random_of(random: &mut Random, kind: Kind, slots: usize) -> Value {
        let mut slot = || random.below(slots) as u8;
        match kind {
            Kind::ReadView => Value::ReadView(slot()),
            Kind::WriteView => Value::WriteView(slot()),
            Kind::Truth => Value::Truth(random.one_in(2)),
            Kind::Integer => Value::Integer(random_integer(random)),
        }
    }

    pub fn random(random: &mut Random, slots: usize) -> Value {
        let kind = Kind::random(random, slots);
        Value::random_of(random, kind, slots)
    }

    pub fn kind(self) -> Kind {
        match self {
            Value::Integer(_) => Kind::Integer,
            Value::Truth(_) => Kind::Truth,
            Value::ReadView(_) => Kind::ReadView,
            Value::WriteView(_) => Kind::WriteView,
        }
    }

    pub fn kind_byte(self) -> u8 {
        self.kind() as u8
    }

    /// The payload, lowest byte first; an integer's is two's complement.
    pub fn payload(self) -> [u8; Value::PAYLOAD] {
        match self {
            Value::Integer(integer) => integer.to_le_bytes(),
            Value::Truth(truth) => Integer::from(truth).to_le_bytes(),
            Value::ReadView(slot) | Value::WriteView(slot) => Integer::from(slot).to_le_bytes(),
        }
    }

    pub fn bytes(self) -> [u8; Value::WIDTH] {
        let mut bytes = [self.kind_byte(); Value::WIDTH];
        bytes[1..].copy_from_slice(&self.payload());
        bytes
    }

    /// The value that these bytes are, if they are good.
    pub fn in_bytes(bytes: &[u8]) -> Option<Value> {
        let (kind, payload) = bytes.split_first()?;
        let number = Integer::from_le_bytes(payload.try_into().ok()?);
        let slot = u8::try_from(number).ok();
        match Kind::ALL.get(usize::from(*kind))? {
            Kind::Integer => Some(Value::Integer(number)),
            Kind::Truth => (number >> 1 == 0).then_some(Value::Truth(number == 1)),
            Kind::ReadView => slot.map(Value::ReadView),
            Kind::WriteView => slot.map(Value::WriteView),
        }
    }
}

/// How many bytes an integer takes without those that only repeat its sign.
pub fn size_of_integer(integer: Integer) -> usize {
    let bits = if integer < 0 { !integer } else { integer };
    let signs = bits.leading_zeros() as usize;
    Value::PAYLOAD - signs / 8
}

/// Small ones, the ends, and any of every size.
pub fn random_integer(random: &mut Random) -> Integer {
    match random.below(8) {
        0..=2 => random.below(21) as Integer - 10,
        3 | 4 => random.pick(&ENDS),
        _ => random_of_size(random),
    }
}

/// A size of one to all bytes, each as likely; then the bits, and the sign.
fn random_of_size(random: &mut Random) -> Integer {
    let bits = 8 * random.between(1, Value::PAYLOAD) as u32;
    let integer = (random.next() >> (u64::BITS - bits)) as Integer;
    match random.one_in(2) {
        true => integer,
        false => !integer,
    }
}

#[cfg(test)]
mod tests {
    use super::*;

    #[test]
    fn sizes_leave_out_what_repeats_the_sign() {
        let known = [
            (0, 0),
            (-1, 0),
            (255, 1),
            (-256, 1),
            (256, 2),
            (-257, 2),
            (u32::MAX as Integer, 4),
            (u32::MAX as Integer + 1, 5),
            (Integer::MAX, 8),
            (Integer::MIN, 8),
        ];
        for (integer, size) in known {
            assert_eq!(size_of_integer(integer), size, "{integer}");
        }
    }

    /// The bits of some integers of every size: each is set in some, clear in
    /// others.
    #[test]
    fn every_bit_of_a_payload_varies() {
        let mut random = Random::of_case(17, 0);
        let integers: Vec<Integer> = (0..1_000).map(|_| random_of_size(&mut random)).collect();
        let all = |join: fn(Integer, Integer) -> Integer| integers.iter().copied().reduce(join);
        assert_eq!(all(|one, other| one | other), Some(-1));
        assert_eq!(all(|one, other| one & other), Some(0));
    }

    #[test]
    fn a_value_is_read_as_it_was_written() {
        let mut random = Random::of_case(25, 0);
        let values = (0..1_000).map(|_| Value::random(&mut random, 256));
        for value in values.chain(ENDS.map(Value::Integer)) {
            assert_eq!(Value::in_bytes(&value.bytes()), Some(value));
        }
        assert_eq!(Value::in_bytes(&[1; Value::WIDTH]), None);
        assert_eq!(Value::in_bytes(&[Kind::UNKNOWN; Value::WIDTH]), None);
    }
}
