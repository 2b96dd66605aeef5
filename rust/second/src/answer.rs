//! Answers and refusals, with the numbers document 01 gives them.

/// "Each answer is number, block, offset, steps."
#[derive(Debug, Clone, Copy, PartialEq, Eq)]
pub struct Answer {
    pub number: u32,
    pub block: u32,
    pub offset: u32,
    pub steps: u32,
}

impl Answer {
    /// The number of an answer that is no refusal.
    pub const FINISHED: u32 = 0;
    /// The one refusal that a run in stretches answers by writing.
    pub(crate) const SPENT: u32 = Refusal::BudgetSpent as u32;
    /// What a run has done before its first step, and all that one refused
    /// ahead of its run has.
    pub(crate) const NO_STEPS: u32 = 0;

    /// "Finished is 0, block k, offset 0."
    pub(crate) fn finished(blocks: usize, steps: u32) -> Answer {
        Answer {
            number: Answer::FINISHED,
            block: blocks as u32,
            offset: 0,
            steps,
        }
    }
}

/// Why a call is refused. Each case stands with its number.
#[derive(Debug, Clone, Copy, PartialEq, Eq)]
pub(crate) enum Refusal {
    StoreLength = 1,
    StoreLimits = 2,
    OrderTable = 3,
    Owner = 4,
    Value = 5,
    ProgrammeLength = 6,
    ProgrammeLimits = 7,
    RegionOrFloor = 8,
    CodeIllFormed = 9,
    NestedTooDeep = 10,
    Arguments = 11,
    OutputLength = 12,
    WrongKind = 13,
    NoAuthority = 14,
    WriteViewNotAllowed = 15,
    ProvenanceTooLow = 16,
    BudgetSpent = 17,
    JournalFull = 18,
    Checkpoint = 19,
}

impl Refusal {
    pub fn number(self) -> u32 {
        self as u32
    }

    /// The number of what may be a refusal; 0 says that there is none.
    pub fn number_of(refusal: Option<Refusal>) -> u32 {
        refusal.map_or(Answer::FINISHED, Refusal::number)
    }
}

/// "Numbers 1 to 8, 11 and 12 give block, offset and steps 0." So does 19, which no
/// step meets.
impl From<Refusal> for Answer {
    fn from(refusal: Refusal) -> Answer {
        Answer {
            number: refusal.number(),
            block: 0,
            offset: 0,
            steps: 0,
        }
    }
}

/// A refusal at an offset of some block: 9 and 10 while the code is read, 13
/// to 18 while it runs.
#[derive(Debug, Clone, Copy, PartialEq, Eq)]
pub(crate) struct BlockRefusal {
    pub refusal: Refusal,
    pub offset: u32,
}

impl BlockRefusal {
    pub fn in_block(self, block: usize, steps: u32) -> Answer {
        Answer {
            number: self.refusal.number(),
            block: block as u32,
            offset: self.offset,
            steps,
        }
    }
}
