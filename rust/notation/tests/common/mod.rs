//! Random stores and programmes, and a reader of sheets, for every test file here.

// Each test file uses its own share of this.
#![allow(dead_code)]

pub mod models;
pub mod odd;
pub mod reader;

/// A fixed stream of numbers (splitmix64), so that a failure comes again.
pub struct Random(u64);

impl Random {
    /// The stream of this case.
    pub fn of(case: u64) -> Random {
        let mut random = Random(case.wrapping_mul(0xD1B5_4A32_D192_ED03));
        random.next();
        random
    }

    pub fn next(&mut self) -> u64 {
        self.0 = self.0.wrapping_add(0x9E37_79B9_7F4A_7C15);
        let mut mixed = self.0;
        mixed = (mixed ^ (mixed >> 30)).wrapping_mul(0xBF58_476D_1CE4_E5B9);
        mixed = (mixed ^ (mixed >> 27)).wrapping_mul(0x94D0_49BB_1331_11EB);
        mixed ^ (mixed >> 31)
    }

    /// A number below this one, which is not 0.
    pub fn below(&mut self, bound: usize) -> usize {
        ((u128::from(self.next()) * bound as u128) >> 64) as usize
    }

    pub fn one_in(&mut self, count: usize) -> bool {
        self.below(count) == 0
    }

    /// One of these, of which there is at least one.
    pub fn pick<'a, T>(&mut self, from: &'a [T]) -> &'a T {
        &from[self.below(from.len())]
    }

    pub fn shuffle<T>(&mut self, items: &mut [T]) {
        for last in (1..items.len()).rev() {
            items.swap(last, self.below(last + 1));
        }
    }

    /// Integers of all sizes: small ones, both ends, and any number of bits.
    pub fn integer(&mut self) -> i64 {
        match self.below(8) {
            0..=3 => self.below(201) as i64 - 100,
            4 => i64::MIN,
            5 => i64::MAX,
            _ => self.next() as i64 >> self.below(64),
        }
    }
}

/// Bytes as the documents write them.
pub fn bytes(hexadecimal: &str) -> Vec<u8> {
    let digits: Vec<char> = hexadecimal.chars().filter(|digit| *digit != ' ').collect();
    let byte = |pair: &[char]| u8::from_str_radix(&String::from_iter(pair), 16).expect("a byte");
    digits.chunks(2).map(byte).collect()
}
