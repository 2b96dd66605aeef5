//! Expressions and commands.

use crate::value::{integer, read_view, write_view};
use crate::{join, Bytes};

pub fn literal(value: Bytes) -> Bytes {
    join(&[&[0x10], &value])
}

pub fn read(view: Bytes) -> Bytes {
    join(&[&[0x11], &view])
}

/// A read of a slot through a literal read view.
pub fn slot(number: i64) -> Bytes {
    read(literal(read_view(number)))
}

/// So many reads in a row, the innermost of a literal view of this slot.
pub fn reads(count: usize, slot: i64) -> Bytes {
    (0..count).fold(literal(read_view(slot)), |view, _| read(view))
}

/// The bytes of the four operations (document 02, N5).
pub const SUM: u8 = 0x12;
pub const DIFFERENCE: u8 = 0x13;
pub const LESS_THAN: u8 = 0x14;
pub const EQUAL: u8 = 0x15;
pub const OPERATIONS: [u8; 4] = [SUM, DIFFERENCE, LESS_THAN, EQUAL];

/// "Each is followed by two expressions."
pub fn operation(byte: u8, left: Bytes, right: Bytes) -> Bytes {
    join(&[&[byte], &left, &right])
}

pub fn sum(left: Bytes, right: Bytes) -> Bytes {
    operation(SUM, left, right)
}

pub fn difference(left: Bytes, right: Bytes) -> Bytes {
    operation(DIFFERENCE, left, right)
}

pub fn less_than(left: Bytes, right: Bytes) -> Bytes {
    operation(LESS_THAN, left, right)
}

pub fn equal(left: Bytes, right: Bytes) -> Bytes {
    operation(EQUAL, left, right)
}

pub fn skip() -> Bytes {
    vec![0x20]
}

pub fn assign(target: Bytes, value: Bytes) -> Bytes {
    join(&[&[0x21], &target, &value])
}

/// An assignment to a slot through a literal write view.
pub fn set(slot: i64, value: Bytes) -> Bytes {
    assign(literal(write_view(slot)), value)
}

/// An assignment of a literal integer to a slot.
pub fn set_integer(slot: i64, payload: i64) -> Bytes {
    set(slot, literal(integer(payload)))
}

pub fn sequence(commands: &[Bytes]) -> Bytes {
    let count = u8::try_from(commands.len()).expect("at most 255 commands");
    join(&[&[0x22, count], &commands.concat()])
}

pub fn if_else(guard: Bytes, then_part: Bytes, else_part: Bytes) -> Bytes {
    join(&[&[0x23], &guard, &then_part, &else_part])
}

pub fn while_do(guard: Bytes, body: Bytes) -> Bytes {
    join(&[&[0x24], &guard, &body])
}

#[cfg(test)]
mod tests {
    use super::*;
    use crate::hex;

    /// "12 sum and 13 difference [..]; 14 less-than [..]; 15 equal [..]. Each is
    /// followed by two expressions."
    #[test]
    fn an_operation_stands_before_its_operands() {
        let one = "10 000100000000000000";
        let read = "11 10 020200000000000000";
        let operations = [
            ("12", sum as fn(Bytes, Bytes) -> Bytes),
            ("13", difference),
            ("14", less_than),
            ("15", equal),
        ];
        for (byte, made) in operations {
            let bytes = hex(&format!("{byte} {one} {read}"));
            assert_eq!(made(literal(integer(1)), slot(2)), bytes);
        }
    }
}
