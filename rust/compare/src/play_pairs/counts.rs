//! What is counted of pairs of runs: by their rules, and by the condition that
//! was left out.

use std::fmt::{self, Display, Formatter};

use super::endorsed::Floors;
use super::stretched::Stretched;
use super::tainted::Operands;
use super::traces::Traces;

/// The rule numbers of the two runs of a pair.
#[derive(Debug, Clone, Copy, PartialEq, Eq)]
pub(super) struct Rules(pub [u32; 2]);

impl Rules {
    /// The numbers that mean full provenance.
    const FULL: [u32; 2] = [3, 255];
    pub const FULL_PROVENANCE: Rules = Rules([3, 3]);
    /// One number for both runs, and those of full provenance mixed.
    pub const ALL: [Rules; 7] = [
        Rules([0, 0]),
        Rules([1, 1]),
        Rules([2, 2]),
        Rules::FULL_PROVENANCE,
        Rules([255, 255]),
        Rules([3, 255]),
        Rules([255, 3]),
    ];

    /// Under rules that don't, some pairs must end differently in a protected
    /// slot, or pairs like these would show nothing.
    pub fn isolate(self) -> bool {
        self.0.iter().all(|rule| Rules::FULL.contains(rule))
    }

    pub fn isolating() -> impl Iterator<Item = Rules> {
        Rules::ALL.into_iter().filter(|rules| rules.isolate())
    }
}

impl Display for Rules {
    fn fmt(&self, out: &mut Formatter) -> fmt::Result {
        match self.0 {
            [one, other] if one == other => write!(out, "rule {one}"),
            [one, other] => write!(out, "rules {one} and {other}"),
        }
    }
}

/// How many pairs of runs under the same rules did what.
#[derive(Debug, Clone, Copy, Default)]
pub struct Counts {
    pub finished: u64,
    /// Finished, and some slot ends differently.
    pub told_apart: u64,
    /// Finished, and some slot ends differently by its high bytes alone.
    pub by_high_bytes: u64,
    /// Finished, and slots end differently by counts alone.
    pub by_counts: u64,
    /// Finished, and a protected slot doesn't end with its opening value.
    pub changed: u64,
    /// Finished, and both journals have several entries that name protected slots.
    pub listed: u64,
    /// Finished, and a protected slot is left differently.
    pub leaked: Traces,
    /// Those among them in which an operation outside the adversary's reach has
    /// a tainted operand.
    pub leaked_with_operation: u64,
    pub operands: Operands,
    pub floors: Floors,
}

impl Display for Counts {
    fn fmt(&self, out: &mut Formatter) -> fmt::Result {
        let Counts {
            finished,
            told_apart,
            by_high_bytes,
            by_counts,
            changed,
            listed,
            leaked,
            leaked_with_operation,
            operands,
            floors,
        } = self;
        write!(
            out,
            "{finished} pairs finish; {changed} of them change a protected slot, {listed} have \
             several entries that name one, {told_apart} end differently in some slot, \
             {by_high_bytes} in one by its high bytes alone, {by_counts} by counts alone; in a \
             protected slot: {leaked}, {leaked_with_operation} of these with a tainted operand; \
             tainted operands: {operands}; endorsed out of reach: {floors}"
        )
    }
}

/// A condition of demand 3 that a pair is made without.
#[derive(Debug, Clone, Copy, PartialEq, Eq)]
pub(super) enum Without {
    /// No endorsed block outside the adversary's reach has the adversary as floor.
    NoFloorAt,
    /// None has a floor below the adversary.
    NoFloorBelow,
    /// The blocks outside reach are the same in both replacements.
    Unchanged,
}

impl Without {
    pub const ALL: [Without; 3] = [
        Without::NoFloorAt,
        Without::NoFloorBelow,
        Without::Unchanged,
    ];

    fn words(self) -> &'static str {
        match self {
            Without::NoFloorAt => "rule 3, floors out of reach may be the adversary",
            Without::NoFloorBelow => "rule 3, floors out of reach may stand below the adversary",
            Without::Unchanged => "rule 3, blocks out of reach may be replaced",
        }
    }
}

#[derive(Debug, Clone, Default)]
pub struct Played {
    pub(super) pairs: u64,
    pub(super) rules: [Counts; Rules::ALL.len()],
    pub(super) without: [Counts; Without::ALL.len()],
    /// Pairs of stores that differ in a protected slot and end differently.
    pub(super) shown: u64,
    /// Those among them that differ by its high bytes alone.
    pub(super) shown_by_high_bytes: u64,
    pub(super) stretched: Stretched,
}

impl Played {
    fn rules(&self) -> impl Iterator<Item = (Rules, Counts)> + '_ {
        Rules::ALL.into_iter().zip(self.rules)
    }

    fn without(&self) -> impl Iterator<Item = (&'static str, Counts)> + '_ {
        Without::ALL
            .map(Without::words)
            .into_iter()
            .zip(self.without)
    }

    /// The counts, in words.
    pub fn lines(&self) -> Vec<String> {
        let rules = self.rules();
        let rules = rules.map(|(rules, counts)| format!("{rules}: {counts}"));
        let without = self.without();
        let without = without.map(|(words, counts)| format!("{words}: {counts}"));
        let (shown, by_high_bytes) = (self.shown, self.shown_by_high_bytes);
        let back = format!(
            "{shown} pairs of stores differ in a protected slot, {by_high_bytes} by its high \
             bytes alone, and end so"
        );
        let stretched = self.stretched.lines();
        rules
            .chain(without)
            .chain([back])
            .chain(stretched)
            .collect()
    }

    /// What is wrong with these counts, in words.
    pub fn complaints(&self) -> Vec<String> {
        let enough = |counts: Counts| counts.finished > self.pairs / 10;
        let telling = |counts: Counts| counts.told_apart > 0 && counts.changed > 0;
        let idle = self
            .rules()
            .filter(|(_, counts)| !enough(*counts) || !telling(*counts))
            .map(|(rules, _)| format!("{rules}: too few pairs finish or do anything"));
        let blind = self
            .rules()
            .filter(|(rules, counts)| !rules.isolate() && counts.leaked.by_value == 0)
            .map(|(rules, _)| format!("{rules}: no pair ends differently where protected"));
        let needless = self
            .without()
            .filter(|(_, counts)| counts.leaked.by_value == 0)
            .map(|(words, _)| format!("{words}: no pair ends differently where protected"));
        let unseen = (self.shown == 0).then(|| "no stores differ where protected".to_string());
        let answers = idle.chain(blind).chain(needless).chain(unseen);
        answers
            .chain(self.complaints_of_high_bytes())
            .chain(self.complaints_of_journals())
            .chain(self.complaints_of_operations())
            .chain(self.complaints_of_floors())
            .chain(self.stretched.complaints())
            .collect()
    }

    fn complaints_of_journals(&self) -> impl Iterator<Item = String> + '_ {
        self.rules().filter_map(|(rules, counts)| {
            let told = counts.by_counts > counts.finished / 100;
            let listed = counts.listed > counts.finished / 100;
            let blind = !rules.isolate() && !counts.leaked.all_came_up();
            let few = format!("{rules}: too few pairs in which counts or entries tell");
            (!told || !listed || blind).then_some(few)
        })
    }

    fn complaints_of_floors(&self) -> impl Iterator<Item = String> + '_ {
        let few = self.rules().filter(|(rules, counts)| {
            rules.isolate() && !counts.floors.are_enough(counts.finished)
        });
        few.map(|(rules, _)| format!("{rules}: too few pairs in which floors count, or too many"))
    }

    fn complaints_of_operations(&self) -> Vec<String> {
        let untainted = self
            .rules()
            .filter(|(_, counts)| !counts.operands.all_came_up())
            .map(|(rules, _)| format!("{rules}: not every operand of an operation is tainted"));
        let blind = self
            .rules()
            .filter(|(rules, counts)| !rules.isolate() && counts.leaked_with_operation == 0)
            .map(|(rules, _)| format!("{rules}: no operation where a protected slot differs"));
        untainted.chain(blind).collect()
    }

    fn complaints_of_high_bytes(&self) -> Vec<String> {
        let coarse = self
            .rules()
            .filter(|(_, counts)| counts.by_high_bytes == 0)
            .map(|(rules, _)| format!("{rules}: no pair ends differently by high bytes alone"));
        let unseen = (self.shown_by_high_bytes == 0)
            .then(|| "no stores differ where protected by high bytes alone".to_string());
        coarse.chain(unseen).collect()
    }
}

#[cfg(test)]
mod tests;
