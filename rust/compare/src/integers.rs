//! Which integers finished runs end with.

use crate::outputs::{slots_of, Record};
use crate::values::{size_of_integer, Integer, Value, ENDS};

const SIZES: usize = Value::PAYLOAD + 1;

/// How often integers of each size came out, and each of the ends.
#[derive(Debug, Clone, Copy, Default)]
struct Counts {
    positive: [u64; SIZES],
    negative: [u64; SIZES],
    ends: [u64; ENDS.len()],
}

impl Counts {
    fn count(&mut self, integer: Integer) {
        let sizes = match integer < 0 {
            true => &mut self.negative,
            false => &mut self.positive,
        };
        sizes[size_of_integer(integer)] += 1;
        let ends = self.ends.iter_mut().zip(ENDS);
        ends.filter(|(_, end)| *end == integer)
            .for_each(|(count, _)| *count += 1);
    }
}

/// The integers in the outputs of finished runs: those of slots that keep what
/// they opened with, and those that were written.
#[derive(Debug, Clone, Copy, Default)]
pub struct Integers {
    kept: Counts,
    written: Counts,
}

impl Integers {
    /// Counts what a finished run left.
    pub fn count(&mut self, output: &[u8]) {
        for record in slots_of(output).filter_map(Record::in_bytes) {
            let counts = match record.count {
                0 => &mut self.kept,
                _ => &mut self.written,
            };
            if let Value::Integer(integer) = record.value {
                counts.count(integer);
            }
        }
    }

    /// The rows of sizes, with their names.
    fn sizes(&self) -> [(&'static str, [u64; SIZES]); 4] {
        [
            ("kept, 0 or more", self.kept.positive),
            ("kept, below 0", self.kept.negative),
            ("written, 0 or more", self.written.positive),
            ("written, below 0", self.written.negative),
        ]
    }

    /// Each end, and how often it was kept and written.
    fn ends(&self) -> impl Iterator<Item = (Integer, u64, u64)> + '_ {
        let counts = self.kept.ends.into_iter().zip(self.written.ends);
        let ends = ENDS.into_iter().zip(counts);
        ends.map(|(end, (kept, written))| (end, kept, written))
    }

    /// The counts, line by line.
    pub fn lines(&self) -> Vec<String> {
        let row = |name: &str, cells: Vec<String>| format!("{name:<24}{}", cells.concat());
        let numbers = (0..SIZES).map(|size| format!("{size:>9}")).collect();
        let heading = row("integers, by bytes", numbers);
        let sizes = self.sizes().map(|(name, counts)| {
            let cells = counts.map(|count| format!("{count:>9}"));
            row(name, cells.to_vec())
        });
        let ends = self
            .ends()
            .map(|(end, kept, written)| format!("{end:<24}{kept:>9} kept, {written} written"));
        [heading].into_iter().chain(sizes).chain(ends).collect()
    }

    /// What never came up, in words.
    pub fn complaints(&self) -> Vec<String> {
        let sizes = self.sizes().into_iter().flat_map(|(name, counts)| {
            let missing = (0..SIZES).filter(move |size| counts[*size] == 0);
            missing.map(move |size| format!("integers {name}: none of {size} bytes came up"))
        });
        let ends = self
            .ends()
            .filter(|(_, kept, written)| *kept == 0 || *written == 0)
            .map(|(end, _, _)| format!("{end} was not both kept and written"));
        sizes.chain(ends).collect()
    }
}

#[cfg(test)]
mod tests {
    use super::*;

    /// The output of slots with these integers, each with this count.
    fn output(integers: &[Integer], count: u32) -> Vec<u8> {
        let record = |integer: &Integer| Record {
            value: Value::Integer(*integer),
            count,
        };
        let slots = integers.iter().map(record);
        slots.flat_map(Record::bytes).collect()
    }

    #[test]
    fn an_integer_that_never_comes_up_is_told() {
        let all: Vec<Integer> = (0..Value::PAYLOAD)
            .map(|size| (1 << (8 * size)) - 1)
            .flat_map(|integer| [integer, !integer])
            .chain(ENDS)
            .collect();
        let mut integers = Integers::default();
        integers.count(&output(&all, 0));
        assert_eq!(integers.complaints().len(), 2 * SIZES + ENDS.len());
        integers.count(&output(&all, 1));
        assert!(integers.complaints().is_empty(), "{integers:?}");

        let before = integers.lines();
        integers.count(&output(&[Integer::MIN], 7));
        let changed = before.iter().zip(integers.lines());
        assert_eq!(changed.filter(|(one, other)| *one != other).count(), 2);
    }
}
