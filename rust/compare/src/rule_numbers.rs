//! Rule numbers that there are not, mostly.

use crate::random::Random;

/// Numbers of more than one byte. The lowest byte of each is the number of a
/// rule, so a call that cuts it off runs.
pub const WIDE: [u32; 8] = [256, 257, 258, 259, 511, 1 << 16, 3 << 24 | 3, u32::MAX];

/// Any number of one byte, mostly one that there is not.
pub fn other_byte(random: &mut Random) -> u8 {
    match random.one_in(2) {
        true => random.pick(&[4, 5, 128, 254]),
        false => random.byte(),
    }
}

/// Any rule number, mostly one that there is not.
pub fn other_rule(random: &mut Random) -> u32 {
    match random.below(4) {
        0 => u32::from(other_byte(random)),
        1 => u32::from_le_bytes([(); 4].map(|()| random.byte())),
        _ => random.pick(&WIDE),
    }
}

#[cfg(test)]
mod tests {
    use super::*;
    use crate::play_runs::RULES;

    #[test]
    fn wide_numbers_end_in_a_rule_s_byte() {
        let known = |number: u32| RULES.iter().any(|(rule, _, _)| *rule == number);
        for wide in WIDE {
            assert!(wide > 255 && !known(wide) && known(wide & 0xFF), "{wide}");
        }
    }
}
