//! What a run tells of its steps, and of the one that was refused. All numbers are
//! plain.

use crate::answer::Answer;
use crate::journal::Value;

/// What a call came to.
#[derive(Debug, Clone, PartialEq, Eq)]
pub struct Told {
    pub answer: Answer,
    /// There for 13 to 18, and for no other answer.
    pub stopped: Option<Stopped>,
}

/// An expression that was evaluated.
#[derive(Debug, Clone, PartialEq, Eq)]
pub struct Seen {
    pub value: Value,
    /// The meet of the top and the owners of all the slots read.
    pub label: u8,
    /// In the order in which they were read.
    pub reads: Vec<ReadSeen>,
}

/// A slot that was read, and what it held.
#[derive(Debug, Clone, Copy, PartialEq, Eq)]
pub struct ReadSeen {
    pub slot: usize,
    pub owner: u8,
    pub value: Value,
}

/// A step that was made.
#[derive(Debug, Clone, PartialEq, Eq)]
pub struct Step {
    /// From 1, those of earlier stretches counted.
    pub number: u32,
    pub block: usize,
    /// Of its command's first byte in the block.
    pub offset: u32,
    /// The branch label of its command.
    pub branch: u8,
    pub what: StepKind,
}

#[derive(Debug, Clone, PartialEq, Eq)]
pub enum StepKind {
    Guard {
        guard: Seen,
        holds: bool,
        /// The branch label inside a part of the command: the meet of the outer
        /// one and the guard's label, whether or not a part is taken.
        inside: u8,
    },
    Write {
        slot: usize,
        owner: u8,
        old: Value,
        target: Seen,
        value: Seen,
    },
}

/// Where a run was refused by 13 to 18, and why.
#[derive(Debug, Clone, PartialEq, Eq)]
pub struct Stopped {
    pub block: usize,
    pub offset: u32,
    /// The steps done before.
    pub steps: u32,
    /// The block's region.
    pub region: u8,
    /// The floor of an endorsed block.
    pub floor: Option<u8>,
    /// The branch label of the command.
    pub branch: u8,
    /// The guards whose parts are open around the command, the outermost first.
    pub guards: Vec<Guarding>,
    pub why: Why,
}

/// A guard around a command: of an if one of whose parts is run, or of a while
/// whose body is.
#[derive(Debug, Clone, PartialEq, Eq)]
pub struct Guarding {
    /// Of the if or the while.
    pub offset: u32,
    pub part: Part,
    /// The branch label inside.
    pub label: u8,
    /// None where it was judged in an earlier stretch.
    pub guard: Option<Seen>,
}

/// Which part of which command.
#[derive(Debug, Clone, Copy, PartialEq, Eq)]
pub enum Part {
    IfThen,
    IfElse,
    WhileBody,
}

/// What an expression is to its command.
#[derive(Debug, Clone, Copy, PartialEq, Eq)]
pub enum Role {
    Guard,
    Target,
    Value,
}

/// What kind of value is needed.
#[derive(Debug, Clone, Copy, PartialEq, Eq)]
pub enum Wanted {
    /// By a guard.
    Truth,
    /// By a target.
    WriteView,
    /// By a read.
    ReadView,
    /// By both operands of the operation with this byte.
    Integers(u8),
}

/// A value that turned up, and where it came from.
#[derive(Debug, Clone, PartialEq, Eq)]
pub struct Found {
    pub value: Value,
    pub from: Origin,
}

/// Where a value came from, the last thing that gave it.
#[derive(Debug, Clone, Copy, PartialEq, Eq)]
pub enum Origin {
    Literal,
    /// What this slot held.
    Slot(usize),
    /// The result of the operation with this byte.
    Operation(u8),
}

/// Why a step was refused.
#[derive(Debug, Clone, PartialEq, Eq)]
pub enum Why {
    /// 13
    WrongKind {
        role: Role,
        wanted: Wanted,
        /// Both operands of an operation, else one value.
        found: Vec<Found>,
        /// The slots that were read to find them.
        reads: Vec<ReadSeen>,
    },
    /// 14
    NoAuthority {
        slot: usize,
        owner: u8,
        target: Seen,
    },
    /// 15
    WriteViewNotAllowed {
        role: Role,
        slot: usize,
        owner: u8,
        /// The slot that the view was read from, or None for a literal.
        read_from: Option<usize>,
    },
    /// 16. The branch's label and where it came from are in [`Stopped`].
    ProvenanceTooLow {
        slot: usize,
        owner: u8,
        target: Seen,
        value: Seen,
        /// Whether the rule judges the branch's label with theirs.
        branch_judged: bool,
        /// Of all the labels judged.
        meet: u8,
    },
    /// 17
    BudgetSpent { budget: u32 },
    /// 18
    JournalFull { entries: usize },
}
