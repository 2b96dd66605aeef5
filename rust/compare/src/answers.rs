//! The answer to a call.

use std::fmt::{self, Display, Formatter};

/// "Each answer is number, block, offset, steps."
#[derive(Debug, Clone, Copy, PartialEq, Eq)]
pub struct Answer {
    pub number: u32,
    pub block: usize,
    pub offset: usize,
    pub steps: u32,
}

impl Answer {
    /// An answer with three zeros after its number.
    pub fn only(number: u32) -> Answer {
        Answer {
            number,
            block: 0,
            offset: 0,
            steps: 0,
        }
    }
}

impl From<second_runner::Answer> for Answer {
    fn from(answer: second_runner::Answer) -> Answer {
        Answer {
            number: answer.number,
            block: answer.block as usize,
            offset: answer.offset as usize,
            steps: answer.steps,
        }
    }
}

impl Display for Answer {
    fn fmt(&self, out: &mut Formatter) -> fmt::Result {
        let Answer {
            number,
            block,
            offset,
            steps,
        } = self;
        write!(out, "{number} block {block} at {offset} steps {steps}")
    }
}
