//! How often each answer came up.

use std::fmt::{self, Display, Formatter};

/// The numbers an answer can have.
pub const NUMBERS: usize = 20;

/// How often each number was the answer to one sort of call, and which ones
/// must come up there and which cannot.
#[derive(Debug, Clone)]
pub struct Tally {
    name: String,
    counts: [u64; NUMBERS],
    /// Answers with a number that there is not.
    unknown: u64,
    due: Vec<u32>,
    impossible: Vec<u32>,
}

impl Tally {
    pub fn new(name: &str, due: &[u32], impossible: &[u32]) -> Tally {
        Tally {
            name: name.to_string(),
            counts: [0; NUMBERS],
            unknown: 0,
            due: due.to_vec(),
            impossible: impossible.to_vec(),
        }
    }

    pub fn count(&mut self, number: u32) {
        let count = self.counts.get_mut(number as usize);
        *count.unwrap_or(&mut self.unknown) += 1;
    }

    pub fn total(&self) -> u64 {
        self.counts.iter().sum()
    }

    fn of(&self, number: u32) -> u64 {
        self.counts[number as usize]
    }

    /// What is wrong with these counts, in words.
    pub fn complaints(&self) -> Vec<String> {
        let name = &self.name;
        let missing = self.due.iter().filter(|number| self.of(**number) == 0);
        let wrong = self
            .impossible
            .iter()
            .filter(|number| self.of(**number) > 0);
        let missing = missing.map(|number| format!("{name}: {number} never came up"));
        let wrong = wrong.map(|number| format!("{name}: {number} came up, which cannot be"));
        let last = NUMBERS - 1;
        let unknown = (self.unknown > 0).then(|| format!("{name}: a number past {last} came up"));
        missing.chain(wrong).chain(unknown).collect()
    }

    /// A line of the numbers, to stand above the tallies.
    pub fn heading() -> String {
        let numbers: String = (0..NUMBERS).map(|number| format!("{number:>7}")).collect();
        format!("{:<16}{numbers}", "answer")
    }
}

/// The counts in a line; `-` for what cannot be.
impl Display for Tally {
    fn fmt(&self, out: &mut Formatter) -> fmt::Result {
        write!(out, "{:<16}", self.name)?;
        for (number, count) in self.counts.iter().enumerate() {
            if *count == 0 && self.impossible.contains(&(number as u32)) {
                write!(out, "{:>7}", "-")?;
            } else {
                write!(out, "{count:>7}")?;
            }
        }
        Ok(())
    }
}

/// Things that must come up, by their names, and how often each did.
#[derive(Debug, Clone)]
pub struct Checklist {
    name: &'static str,
    counts: Vec<(String, u64)>,
}

impl Checklist {
    pub fn new(name: &'static str, things: impl IntoIterator<Item = impl Display>) -> Checklist {
        let things = things.into_iter();
        let counts = things.map(|thing| (thing.to_string(), 0)).collect();
        Checklist { name, counts }
    }

    /// Counts this one if it is on the list.
    pub fn count(&mut self, thing: impl Display) {
        let thing = thing.to_string();
        let found = self.counts.iter_mut().filter(|(own, _)| *own == thing);
        found.for_each(|(_, count)| *count += 1);
    }

    /// Counts the one at this place of the list so many times.
    pub fn add(&mut self, place: usize, times: u64) {
        self.counts[place].1 += times;
    }

    /// What never came up, in words.
    pub fn complaints(&self) -> Vec<String> {
        let missing = self.counts.iter().filter(|(_, count)| *count == 0);
        missing
            .map(|(thing, _)| format!("{}: {thing} never came up", self.name))
            .collect()
    }

    /// What came up no more often than this, in words.
    pub fn complaints_up_to(&self, few: u64) -> Vec<String> {
        let rare = self.counts.iter().filter(|(_, count)| *count <= few);
        rare.map(|(thing, count)| format!("{}: {thing} came up {count} times", self.name))
            .collect()
    }
}

/// The counts in a line, with their sum.
impl Display for Checklist {
    fn fmt(&self, out: &mut Formatter) -> fmt::Result {
        let total: u64 = self.counts.iter().map(|(_, count)| count).sum();
        let counts = self.counts.iter();
        let cells: Vec<String> = counts
            .map(|(thing, count)| format!("{thing}: {count}"))
            .collect();
        write!(out, "{} ({total})  {}", self.name, cells.join(", "))
    }
}

#[cfg(test)]
mod tests {
    use super::*;

    #[test]
    fn a_checklist_counts_what_is_on_it() {
        let mut list = Checklist::new("sizes", [0, 256]);
        [0, 7, 0].into_iter().for_each(|size| list.count(size));
        assert_eq!(list.complaints(), ["sizes: 256 never came up"]);
        list.count(256);
        assert!(list.complaints().is_empty());
        assert_eq!(list.to_string(), "sizes (3)  0: 2, 256: 1");
        list.add(1, 4);
        assert_eq!(list.to_string(), "sizes (7)  0: 2, 256: 5");
        assert!(list.complaints_up_to(1).is_empty());
        assert_eq!(list.complaints_up_to(2), ["sizes: 0 came up 2 times"]);
    }

    #[test]
    fn complains_of_what_is_missing_and_of_what_cannot_be() {
        let mut tally = Tally::new("run", &[0, 13], &[15]);
        assert_eq!(tally.complaints().len(), 2);
        tally.count(0);
        tally.count(13);
        assert!(tally.complaints().is_empty());
        tally.count(15);
        assert_eq!(
            tally.complaints(),
            ["run: 15 came up, which cannot be".to_string()]
        );
        tally.count(NUMBERS as u32);
        assert_eq!(tally.complaints().len(), 2);
    }
}
