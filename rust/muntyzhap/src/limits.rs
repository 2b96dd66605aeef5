//! How much a run may do: its budget, and its journal's length.

/// The largest budget, in steps. A larger one is refused by 11.
pub const MOST_BUDGET: u32 = 1_000_000;

/// The limits of a run: its budget of steps (17), and how many entries its
/// journal has (18).
///
/// Each assignment takes an entry, and is a step. So a journal never needs more
/// entries than the budget has steps; a [budget](Limits::budget) alone gives it
/// as many, and 18 does not come up:
///
/// ```
/// # use muntyzhap::Limits;
/// assert_eq!(Limits::from(1000), Limits::budget(1000));
/// let at_most_64_writes = Limits::budget(1000).journal(64);
/// ```
///
/// A shorter one keeps a run from writing more than it should, or from taking
/// more memory: an entry has 56 bytes. Memory that no entry is written to is not
/// taken.
#[derive(Debug, Clone, Copy, PartialEq, Eq)]
pub struct Limits {
    budget: u32,
    /// None where it has an entry for each step of the budget.
    journal: Option<usize>,
}

impl Limits {
    /// At most so many steps, and an entry for each.
    pub fn budget(steps: u32) -> Limits {
        Limits {
            budget: steps,
            journal: None,
        }
    }

    /// The same budget, with a journal of so many entries.
    pub fn journal(self, entries: usize) -> Limits {
        Limits {
            journal: Some(entries),
            ..self
        }
    }

    /// The most steps.
    pub(crate) fn steps(self) -> u32 {
        self.budget
    }

    /// The entries that the run is lent. What a journal has beyond the budget is
    /// never filled and changes no answer, so it is left out.
    pub(crate) fn entries(self) -> usize {
        let most = self.budget.min(MOST_BUDGET) as usize;
        self.journal.map_or(most, |entries| entries.min(most))
    }
}

/// So many steps, and an entry for each.
impl From<u32> for Limits {
    fn from(budget: u32) -> Limits {
        Limits::budget(budget)
    }
}

#[cfg(test)]
mod tests {
    use super::*;

    /// A budget that is too large is refused, whatever the journal.
    #[test]
    fn a_journal_has_no_more_entries_than_the_budget_has_steps() {
        let past = MOST_BUDGET + 1;
        let cases = [
            (Limits::budget(0), 0),
            (Limits::budget(7), 7),
            (Limits::budget(7).journal(0), 0),
            (Limits::budget(7).journal(6), 6),
            (Limits::budget(7).journal(8), 7),
            (Limits::budget(7).journal(usize::MAX), 7),
            (Limits::budget(MOST_BUDGET), MOST_BUDGET as usize),
            (Limits::budget(past), MOST_BUDGET as usize),
            (Limits::budget(u32::MAX).journal(9), 9),
        ];
        for (limits, entries) in cases {
            assert_eq!(limits.entries(), entries, "{limits:?}");
        }
        assert_eq!(Limits::budget(past).journal(9).steps(), past);
    }
}
