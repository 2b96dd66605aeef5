//! Rule sets.

use std::fmt::{self, Display, Formatter};

/// A rule set, by its number.
///
/// Rules 2 and 3 judge labels (16). In a block that is not endorsed all of them
/// must stand at or above the owner of the slot to be written. In an endorsed
/// one they may instead all stand at or above its floor: "an endorsed assignment
/// passes under rules 2 and 3 when the meet of all labels judged stands at or
/// above the slot's owner, or at or above the floor" (document 02, N6). Rules 0
/// and 1 judge no label, so that there a floor need only be a principal's (8).
#[derive(Debug, Clone, Copy, PartialEq, Eq)]
pub enum Rule {
    /// The block's region must be at or above the owner of the slot it writes.
    AccessControl = 0,
    /// A block may have no write view of a slot whose owner isn't at or below
    /// its region.
    Capability = 1,
    /// Access control, and the labels of target and value are judged.
    ExplicitProvenance = 2,
    /// Explicit provenance, and the label of the branch is judged with them. It
    /// isolates from an adversary where no endorsed block outside the
    /// adversary's reach has a floor at or below the adversary.
    FullProvenance = 3,
    /// The default rule, which document 01 calls the house rule: full
    /// provenance.
    Default = 255,
}

impl Rule {
    /// Every rule set, in the order of their numbers.
    pub const ALL: [Rule; 5] = [
        Rule::AccessControl,
        Rule::Capability,
        Rule::ExplicitProvenance,
        Rule::FullProvenance,
        Rule::Default,
    ];

    /// The number of this rule set.
    pub fn number(self) -> u32 {
        self as u32
    }

    /// The rule set of this number, if there is one.
    pub fn from_number(number: u32) -> Option<Rule> {
        Rule::ALL.into_iter().find(|rule| rule.number() == number)
    }
}

/// The rule set's name.
impl Display for Rule {
    fn fmt(&self, out: &mut Formatter) -> fmt::Result {
        out.write_str(match self {
            Rule::AccessControl => "access control",
            Rule::Capability => "capability",
            Rule::ExplicitProvenance => "explicit provenance",
            Rule::FullProvenance => "full provenance",
            Rule::Default => "the default rule",
        })
    }
}
