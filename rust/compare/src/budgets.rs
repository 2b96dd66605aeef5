//! Budgets beside the steps that runs do.

use std::fmt::{self, Display, Formatter};

use crate::ample::AMPLE;
use crate::answers::Answer;
use crate::random::Random;

pub const MOST_BUDGET: u32 = 1_000_000;

/// A budget around the steps that the run does when it has enough. One that
/// has no end gets a large budget only now and then, since it takes long.
pub fn random_budget(random: &mut Random, ample: Answer) -> u32 {
    let steps = ample.steps;
    let large = if ample.number == 17 && !random.one_in(200) {
        AMPLE
    } else {
        MOST_BUDGET
    };
    match random.below(20) {
        0..=5 => steps,
        6 | 7 => steps.saturating_sub(1),
        8..=13 => steps + 1,
        14 => 0,
        15 => random.between(0, steps as usize) as u32,
        16..=18 => large,
        _ => random.pick(&[MOST_BUDGET + 1, u32::MAX, 1 << 24]),
    }
}

/// How many runs had which budget beside the steps that they do when they have
/// enough. Runs that are refused before their first step don't count.
#[derive(Debug, Clone, Copy, Default)]
pub struct Budgets {
    one_less: u64,
    exact: u64,
    one_more: u64,
}

impl Budgets {
    pub fn count(&mut self, budget: u32, steps: u32) {
        match i64::from(budget) - i64::from(steps) {
            -1 => self.one_less += 1,
            0 => self.exact += 1,
            1 => self.one_more += 1,
            _ => (),
        }
    }

    pub fn complaints(&self) -> Vec<String> {
        let counts = [self.one_less, self.exact, self.one_more];
        if counts.contains(&0) {
            vec![format!("one of these never came up: {self}")]
        } else {
            Vec::new()
        }
    }
}

impl Display for Budgets {
    fn fmt(&self, out: &mut Formatter) -> fmt::Result {
        let Budgets {
            one_less,
            exact,
            one_more,
        } = self;
        write!(
            out,
            "budget beside the steps that a run does: \
             one less {one_less}, as many {exact}, one more {one_more}"
        )
    }
}

#[cfg(test)]
mod tests {
    use super::*;

    #[test]
    fn a_budget_that_never_comes_up_is_told() {
        let mut budgets = Budgets::default();
        budgets.count(4, 5);
        budgets.count(5, 5);
        assert_eq!(budgets.complaints().len(), 1);
        budgets.count(6, 5);
        assert!(budgets.complaints().is_empty());
    }
}
