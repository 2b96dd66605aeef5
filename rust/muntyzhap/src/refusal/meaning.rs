//! What each refusal means, in words.

use super::Refusal;

impl Refusal {
    /// What it means, without its place.
    pub fn meaning(&self) -> &'static str {
        match self {
            Refusal::StoreLength => {
                "the store sheet's length is not what its sizes say, or it is too short to hold them"
            }
            Refusal::StoreLimits => {
                "the store sheet must have 1 to 32 principals and at most 256 slots"
            }
            Refusal::OrderTable => {
                "the order table is not good: it names principals that there are not, does not \
                 order those that there are, or leaves two of them without a meet or all without \
                 a top"
            }
            Refusal::Owner => "the owner of a slot is not one of the principals",
            Refusal::Value => {
                "the value of a slot is ill-formed: its kind is unknown, its truth value is \
                 neither 0 nor 1, or its view is of a slot that there is not"
            }
            _ => self.meaning_in_programme(),
        }
    }

    fn meaning_in_programme(&self) -> &'static str {
        match self {
            Refusal::ProgrammeLength => {
                "the programme sheet's length is not what its sizes say, it is too short to hold \
                 them, or its block lengths do not add up to its code"
            }
            Refusal::ProgrammeLimits => {
                "the programme sheet may have at most 64 blocks and 16,384 bytes of code"
            }
            Refusal::Region => {
                "the region of a block, or the floor of an endorsed one, is not one of the \
                 principals"
            }
            Refusal::IllFormedCode(_) => {
                "the code is ill-formed: an unknown byte, a bad count or literal, code that ends \
                 early, or bytes left over"
            }
            Refusal::NestedTooDeep(_) => {
                "the code is nested too deep: commands may nest 32 deep, and in an expression \
                 reads and operations together 8 deep"
            }
            Refusal::Arguments => {
                "the rule must be 0, 1, 2, 3 or 255, and the budget at most 1,000,000 steps"
            }
            Refusal::OutputLength => {
                "an output must have 13 bytes for each slot of the store, and a pause sheet 256 bytes"
            }
            _ => self.meaning_in_run(),
        }
    }

    fn meaning_in_run(&self) -> &'static str {
        match self {
            Refusal::WrongKind(_) => {
                "wrong kind: a guard must be a truth value, what is read through must be a read \
                 view, a target must be a write view, and what a sum, a difference or a less-than \
                 is of must be two integers"
            }
            Refusal::NoAuthority(_) => {
                "the region lacks authority: it does not stand at or above the owner of the slot \
                 to be written"
            }
            Refusal::WriteViewNotAllowed(_) => {
                "a write view is not allowed to this region: the owner of its slot does not stand \
                 at or below the region"
            }
            Refusal::ProvenanceTooLow(_) => {
                "provenance too low: the meet of the labels of target, value and, under rule 3, \
                 branch stands neither at or above the owner of the slot to be written nor, if the \
                 block is endorsed, at or above its floor"
            }
            Refusal::BudgetSpent(_) => "the budget is spent, and another step was to be done",
            Refusal::JournalFull(_) => {
                "the journal is full: each assignment needs an entry, and none is left for this one"
            }
            Refusal::Checkpoint => {
                "the checkpoint is not good: its path leads to no assignment, if or while, a label \
                 on it does not stand at or below the one outside or is another one in a sequence, \
                 an unused byte is not 0, a value is ill-formed, or counts add up to more than the \
                 steps"
            }
            _ => "a number that this wrapper does not know",
        }
    }
}
