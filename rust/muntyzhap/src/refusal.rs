//! Refusals, each with document 01's number, its place and its meaning.

mod meaning;

use std::error::Error;
use std::fmt::{self, Display, Formatter};

use crate::library::Answer;

/// A place in a programme.
#[derive(Debug, Clone, Copy, PartialEq, Eq)]
pub struct Place {
    /// The number of the block, from 0.
    pub block: usize,
    /// The number of the byte in the block's code, from 0.
    pub offset: usize,
}

/// Where a run was stopped.
#[derive(Debug, Clone, Copy, PartialEq, Eq)]
pub struct Stop {
    /// The first byte of the command whose step was forbidden.
    pub place: Place,
    /// The steps done before it; it is not counted itself.
    pub steps: u32,
}

/// Why a call was refused. Whatever it was lent is then as it was. That a budget
/// is spent (17) is a refusal of [`run`](crate::run) alone: [`start`](crate::start)
/// and [`carry_on`](crate::carry_on) give a checkpoint.
#[derive(Debug, Clone, Copy, PartialEq, Eq)]
pub enum Refusal {
    /// 1, by the store sheet.
    StoreLength,
    /// 2, by the store sheet.
    StoreLimits,
    /// 3, by the store sheet.
    OrderTable,
    /// 4, by the store sheet.
    Owner,
    /// 5, by the store sheet.
    Value,
    /// 6, by the programme sheet.
    ProgrammeLength,
    /// 7, by the programme sheet.
    ProgrammeLimits,
    /// 8, by the programme sheet: the region of a block, or the floor of an
    /// endorsed one, is not one of the principals. Which of the two, and in
    /// which block, the answer does not tell.
    Region,
    /// 9, by the programme sheet.
    IllFormedCode(Place),
    /// 10, by the programme sheet.
    NestedTooDeep(Place),
    /// 11, by the caller.
    Arguments,
    /// 12, by the caller.
    OutputLength,
    /// 13, by a block while it runs.
    WrongKind(Stop),
    /// 14, by a block while it runs.
    NoAuthority(Stop),
    /// 15, by a block while it runs.
    WriteViewNotAllowed(Stop),
    /// 16, by a block while it runs: the meet of all labels judged stands
    /// neither at or above the slot's owner nor, if the block is endorsed, at or
    /// above its floor.
    ProvenanceTooLow(Stop),
    /// 17, by a block while it runs.
    BudgetSpent(Stop),
    /// 18, by a block while it runs: an assignment comes, and the journal has no
    /// entry left for it. The budget is judged before, the assignment's target
    /// after.
    JournalFull(Stop),
    /// 19, by the caller: what is to be carried on from is not good. Its path
    /// leads to no assignment, if or while of the programme; a label on it does not
    /// stand at or below the one outside, or in a sequence is another; an unused
    /// byte is not 0; a value is ill-formed; or counts add up to more than the
    /// steps. Which of these, the answer does not tell.
    Checkpoint,
    /// A number that document 01 does not have. The library is proved never to
    /// answer one; a later one may have numbers of its own. Whatever is not 0
    /// did not finish, so it is a refusal and never taken for another.
    Unknown(Answer),
}

impl Refusal {
    /// The refusal that an answer of [`raw`](crate::raw) is; none if its number
    /// is 0.
    pub fn from_answer(answer: Answer) -> Option<Refusal> {
        let place = Place {
            block: answer.block,
            offset: answer.offset,
        };
        let stop = Stop {
            place,
            steps: answer.steps,
        };
        Some(match answer.number {
            0 => return None,
            1 => Refusal::StoreLength,
            2 => Refusal::StoreLimits,
            3 => Refusal::OrderTable,
            4 => Refusal::Owner,
            5 => Refusal::Value,
            6 => Refusal::ProgrammeLength,
            7 => Refusal::ProgrammeLimits,
            8 => Refusal::Region,
            9 => Refusal::IllFormedCode(place),
            10 => Refusal::NestedTooDeep(place),
            11 => Refusal::Arguments,
            12 => Refusal::OutputLength,
            13 => Refusal::WrongKind(stop),
            14 => Refusal::NoAuthority(stop),
            15 => Refusal::WriteViewNotAllowed(stop),
            16 => Refusal::ProvenanceTooLow(stop),
            17 => Refusal::BudgetSpent(stop),
            18 => Refusal::JournalFull(stop),
            19 => Refusal::Checkpoint,
            _ => Refusal::Unknown(answer),
        })
    }

    /// Document 01's number.
    pub fn number(&self) -> u32 {
        match self {
            Refusal::StoreLength => 1,
            Refusal::StoreLimits => 2,
            Refusal::OrderTable => 3,
            Refusal::Owner => 4,
            Refusal::Value => 5,
            Refusal::ProgrammeLength => 6,
            Refusal::ProgrammeLimits => 7,
            Refusal::Region => 8,
            Refusal::IllFormedCode(_) => 9,
            Refusal::NestedTooDeep(_) => 10,
            Refusal::Arguments => 11,
            Refusal::OutputLength => 12,
            Refusal::WrongKind(_) => 13,
            Refusal::NoAuthority(_) => 14,
            Refusal::WriteViewNotAllowed(_) => 15,
            Refusal::ProvenanceTooLow(_) => 16,
            Refusal::BudgetSpent(_) => 17,
            Refusal::JournalFull(_) => 18,
            Refusal::Checkpoint => 19,
            Refusal::Unknown(answer) => answer.number,
        }
    }

    /// Where it was refused: in code that is not good (9 and 10), or at the
    /// command whose step was forbidden (13 to 18).
    pub fn place(&self) -> Option<Place> {
        match self {
            Refusal::IllFormedCode(place) | Refusal::NestedTooDeep(place) => Some(*place),
            _ => self.stop().map(|stop| stop.place),
        }
    }

    /// Where the run was stopped, if it had begun (13 to 18).
    pub fn stop(&self) -> Option<Stop> {
        match self {
            Refusal::WrongKind(stop)
            | Refusal::NoAuthority(stop)
            | Refusal::WriteViewNotAllowed(stop)
            | Refusal::ProvenanceTooLow(stop)
            | Refusal::BudgetSpent(stop)
            | Refusal::JournalFull(stop) => Some(*stop),
            _ => None,
        }
    }
}

/// The number, the place where there is one, and the meaning.
impl Display for Refusal {
    fn fmt(&self, out: &mut Formatter) -> fmt::Result {
        write!(out, "refused by {}", self.number())?;
        if let Some(place) = self.place() {
            write!(out, " in {place}")?;
        }
        if let Some(stop) = self.stop() {
            write!(out, ", steps done {}", stop.steps)?;
        }
        write!(out, ": {}", self.meaning())
    }
}

impl Display for Place {
    fn fmt(&self, out: &mut Formatter) -> fmt::Result {
        write!(out, "block {} at offset {}", self.block, self.offset)
    }
}

impl Error for Refusal {}

#[cfg(test)]
mod tests {
    use super::*;
    use crate::code::{MOST_DEPTH, MOST_NESTED};
    use crate::sheet::{Slot, MOST_BLOCKS, MOST_CODE, MOST_PRINCIPALS, MOST_SLOTS};
    use crate::{Checkpoint, MOST_BUDGET};

    fn answer(number: u32) -> Answer {
        Answer {
            number,
            block: 3,
            offset: 44,
            steps: 555,
        }
    }

    fn refusal(number: u32) -> Refusal {
        Refusal::from_answer(answer(number)).expect("a refusal")
    }

    #[test]
    fn each_number_has_its_refusal_and_its_own_words() {
        assert_eq!(Refusal::from_answer(answer(0)), None);
        let mut meanings: Vec<&str> = (1..=20)
            .map(|number| {
                assert_eq!(refusal(number).number(), number);
                refusal(number).meaning()
            })
            .collect();
        meanings.sort();
        meanings.dedup();
        assert_eq!(meanings.len(), 20, "{meanings:?}");
    }

    #[test]
    fn a_place_is_shown_just_where_document_01_gives_one() {
        let place = Place {
            block: 3,
            offset: 44,
        };
        for number in 1..=19 {
            let (refusal, running) = (refusal(number), (13..=18).contains(&number));
            let placed = running || matches!(number, 9 | 10);
            assert_eq!(refusal.place(), placed.then_some(place), "{number}");
            assert_eq!(refusal.stop().is_some(), running, "{number}");
            let words = refusal.to_string();
            let expected = format!(
                "refused by {number}{}",
                match (placed, running) {
                    (true, true) => " in block 3 at offset 44, steps done 555: ",
                    (true, false) => " in block 3 at offset 44: ",
                    _ => ": ",
                }
            );
            assert!(words.starts_with(&expected), "{words}");
        }
    }

    #[test]
    fn limits_in_words_are_the_limits() {
        let limits = [
            (2, MOST_PRINCIPALS),
            (2, MOST_SLOTS),
            (7, MOST_BLOCKS),
            (7, MOST_CODE),
            (10, MOST_DEPTH),
            (10, MOST_NESTED),
            (11, MOST_BUDGET as usize),
            (12, Slot::BYTES),
            (12, Checkpoint::PAUSE_BYTES),
        ];
        for (number, limit) in limits {
            let meaning = refusal(number).meaning().replace(',', "");
            let limit = limit.to_string();
            assert!(meaning.split(' ').any(|word| word == limit), "{meaning}");
        }
    }

    #[test]
    fn a_number_that_is_not_known_is_a_refusal_of_its_own() {
        for number in [20, 255, u32::MAX] {
            assert_eq!(refusal(number), Refusal::Unknown(answer(number)));
            let words = refusal(number).to_string();
            let expected = format!("refused by {number}: a number that this wrapper does not know");
            assert_eq!(words, expected);
        }
    }
}
