//! Journals beside the writes that runs make.

use crate::random::Random;
use crate::tally::Checklist;

/// The journal's length beside the writes, where they are known: often around
/// them, sometimes 0, mostly some entries more than are needed.
pub fn random_length(random: &mut Random, writes: Option<usize>) -> usize {
    let writes = writes.unwrap_or_else(|| random.below(60));
    match random.below(40) {
        0 | 1 => 0,
        2 | 3 => writes.saturating_sub(2),
        4 | 5 => writes.saturating_sub(1),
        6..=9 => writes,
        10..=12 => writes + 1,
        13 | 14 => writes + 2,
        15 | 16 => random.between(0, writes),
        _ => writes + random.between(3, 30),
    }
}

const BESIDE: [&str; 8] = [
    "two less",
    "one less",
    "as many",
    "one more",
    "two more",
    "fewer",
    "more",
    "none, and there are writes",
];
const FEWER: usize = 5;
const MORE: usize = 6;
const NONE: usize = 7;

/// How many runs were lent which journal beside the writes that they make when
/// they have enough. Runs that are refused before their first step don't count.
#[derive(Debug, Clone)]
pub struct Lengths {
    runs: u64,
    list: Checklist,
}

impl Default for Lengths {
    fn default() -> Lengths {
        Lengths {
            runs: 0,
            list: Checklist::new("entries beside the writes that a run makes", BESIDE),
        }
    }
}

impl Lengths {
    pub fn count(&mut self, length: usize, writes: usize) {
        self.runs += 1;
        let place = match length as isize - writes as isize {
            beside @ -2..=2 => (beside + 2) as usize,
            beside if beside < 0 => FEWER,
            _ => MORE,
        };
        self.list.add(place, 1);
        if length == 0 && writes > 0 {
            self.list.add(NONE, 1);
        }
    }

    pub fn line(&self) -> String {
        self.list.to_string()
    }

    /// What came up too seldom, in words.
    pub fn complaints(&self) -> Vec<String> {
        self.list.complaints_up_to(self.runs / 100)
    }
}

#[cfg(test)]
mod tests {
    use super::*;

    #[test]
    fn a_length_that_seldom_comes_up_is_told() {
        let mut lengths = Lengths::default();
        assert_eq!(lengths.complaints().len(), BESIDE.len());
        for length in [0, 1, 3, 4, 5, 6, 7, 9] {
            lengths.count(length, 5);
        }
        assert!(lengths.complaints().is_empty(), "{}", lengths.line());
        (0..200).for_each(|_| lengths.count(5, 5));
        assert_eq!(lengths.complaints().len(), BESIDE.len() - 1);
    }

    #[test]
    fn lengths_are_around_the_writes() {
        let mut random = Random::of_case(31, 0);
        let mut lengths = Lengths::default();
        for _ in 0..5_000 {
            lengths.count(random_length(&mut random, Some(9)), 9);
        }
        assert!(lengths.complaints().is_empty(), "{}", lengths.line());
        let none = (0..200).map(|_| random_length(&mut random, Some(0)));
        assert!(none.filter(|length| *length == 0).count() > 50);
    }
}
