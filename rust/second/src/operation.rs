//! What operations give (document 02, N5).

use crate::value::{Integer, Value};

/// Wide enough for the sum and the difference of any two integers.
type Wide = i128;

/// Which operation; each case stands with its byte in the code.
#[derive(Debug, Clone, Copy, PartialEq, Eq)]
pub(crate) enum Operator {
    Sum = 0x12,
    Difference = 0x13,
    LessThan = 0x14,
    Equal = 0x15,
}

impl Operator {
    const ALL: [Operator; 4] = [
        Operator::Sum,
        Operator::Difference,
        Operator::LessThan,
        Operator::Equal,
    ];

    pub fn from_byte(byte: u8) -> Option<Operator> {
        let mut all = Operator::ALL.into_iter();
        all.find(|operator| operator.byte() == byte)
    }

    pub fn byte(self) -> u8 {
        self as u8
    }

    /// What comes of two values, or None if their kinds are wrong for it: all
    /// but `Equal` are "of two integers".
    pub fn apply(self, left: Value, right: Value) -> Option<Value> {
        let value = match (self, left, right) {
            (Operator::Equal, left, right) => Value::Truth(agree(left, right)),
            (Operator::LessThan, Value::Integer(left), Value::Integer(right)) => {
                Value::Truth(left < right)
            }
            (Operator::Sum, Value::Integer(left), Value::Integer(right)) => {
                Value::Integer(wrapped(Wide::from(left) + Wide::from(right)))
            }
            (Operator::Difference, Value::Integer(left), Value::Integer(right)) => {
                Value::Integer(wrapped(Wide::from(left) - Wide::from(right)))
            }
            _ => return None,
        };
        Some(value)
    }
}

/// "equal, true when kind and payload agree, for values of any kinds"
fn agree(left: Value, right: Value) -> bool {
    left.kind() == right.kind() && left.payload() == right.payload()
}

/// "both wrapping at 64 bits": the integer that differs from this one by a
/// multiple of 2 to the 64th.
fn wrapped(result: Wide) -> Integer {
    const ALL: Wide = 1 << Integer::BITS;
    let above_least = (result - Wide::from(Integer::MIN)).rem_euclid(ALL);
    (Wide::from(Integer::MIN) + above_least) as Integer
}

#[cfg(test)]
mod tests {
    use super::*;

    #[test]
    fn the_four_bytes_are_known() {
        let known: Vec<u8> = (0..=255)
            .filter(|byte| Operator::from_byte(*byte).is_some())
            .collect();
        assert_eq!(known, [0x12, 0x13, 0x14, 0x15]);
    }

    #[test]
    fn results_past_an_end_come_in_at_the_other() {
        let (least, greatest) = (Wide::from(Integer::MIN), Wide::from(Integer::MAX));
        let known = [
            (0, 0),
            (least, Integer::MIN),
            (greatest, Integer::MAX),
            (greatest + 1, Integer::MIN),
            (least - 1, Integer::MAX),
            (greatest + greatest, -2),
            (least + least, 0),
            (least - greatest, 1),
            (greatest - least, -1),
        ];
        for (result, integer) in known {
            assert_eq!(wrapped(result), integer, "{result}");
        }
    }
}
