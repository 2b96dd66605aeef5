//! The rule sets and the budget: what the caller chooses, and what an
//! assignment or a value is judged by.

use crate::order::{Order, Principal};
use crate::programme::Region;
use crate::sheet::Table;
use crate::value::{SlotNumber, Value};

/// The most steps a run may do.
#[derive(Debug, Clone, Copy)]
pub(crate) struct Budget(u32);

impl Budget {
    const MOST_STEPS: u32 = 1_000_000;

    pub fn from_steps(steps: u32) -> Option<Budget> {
        (steps <= Budget::MOST_STEPS).then_some(Budget(steps))
    }

    pub fn steps(self) -> u32 {
        self.0
    }

    /// "if steps done equal the budget, the run is spent". Where a run is carried
    /// on, a budget "at or below" the steps so far "gives 17 before any step"
    /// (document 02, N8).
    pub fn is_spent(self, steps_done: u32) -> bool {
        steps_done >= self.0
    }
}

/// The labels an assignment brings: those of its target, its value and the
/// branch it stands in.
#[derive(Debug, Clone, Copy)]
pub(crate) struct Labels {
    pub target: Principal,
    pub value: Principal,
    pub branch: Principal,
}

/// Why an assignment may not pass.
#[derive(Debug, Clone, Copy)]
pub(crate) enum Objection {
    /// 14
    NoAuthority,
    /// 16: the meet of the labels judged stands too low.
    ProvenanceTooLow {
        meet: Principal,
        branch_judged: bool,
    },
}

#[derive(Debug, Clone, Copy, PartialEq, Eq)]
pub(crate) enum RuleSet {
    AccessControl,
    Capability,
    ExplicitProvenance,
    FullProvenance,
}

impl RuleSet {
    const ACCESS_CONTROL: u32 = 0;
    const CAPABILITY: u32 = 1;
    const EXPLICIT_PROVENANCE: u32 = 2;
    const FULL_PROVENANCE: u32 = 3;
    /// The default rule, document 01's house rule. "Rule 255 is to mean rule 3."
    /// (document 02, N1)
    const DEFAULT: u32 = 255;

    /// 11 is "rule not 0, 1, 2, 3 or 255".
    pub fn from_number(number: u32) -> Option<RuleSet> {
        match number {
            RuleSet::ACCESS_CONTROL => Some(RuleSet::AccessControl),
            RuleSet::CAPABILITY => Some(RuleSet::Capability),
            RuleSet::EXPLICIT_PROVENANCE => Some(RuleSet::ExplicitProvenance),
            RuleSet::FULL_PROVENANCE | RuleSet::DEFAULT => Some(RuleSet::FullProvenance),
            _ => None,
        }
    }

    /// Judges a literal or the result of a read by 15. Under rule 1 a write
    /// view "must have an owner at or below the region"; no other rule asks. The
    /// slot and its owner, where it has not.
    pub fn denied(
        self,
        table: &Table,
        region: Region,
        value: Value,
    ) -> Option<(SlotNumber, Principal)> {
        match (self, value) {
            (RuleSet::Capability, Value::WriteView(slot)) => {
                let owner = table.owner(slot);
                let allowed = table.order.at_or_below(owner, region.principal);
                (!allowed).then_some((slot, owner))
            }
            _ => None,
        }
    }

    /// Judges an assignment to a slot of this owner once target and value are
    /// evaluated: 14, then 16.
    pub fn judge_assignment(
        self,
        order: &Order,
        region: Region,
        owner: Principal,
        labels: Labels,
    ) -> Result<(), Objection> {
        if self.asks_authority() && !order.at_or_below(owner, region.principal) {
            return Err(Objection::NoAuthority);
        }
        match self.meet_of_judged(order, labels) {
            Some(meet) if !reaches(order, meet, owner, region.endorsed_down_to) => {
                Err(Objection::ProvenanceTooLow {
                    meet,
                    branch_judged: self == RuleSet::FullProvenance,
                })
            }
            _ => Ok(()),
        }
    }

    /// Rules 2 and 3 contain rule 0; rule 1 judges write views as they turn
    /// up and asks nothing more of an assignment.
    fn asks_authority(self) -> bool {
        self != RuleSet::Capability
    }

    /// "the meet of all labels judged" (document 02, N6): rule 2 judges target
    /// and value, rule 3 "one more label, that of the branch", the others none.
    fn meet_of_judged(self, order: &Order, labels: Labels) -> Option<Principal> {
        let explicit = order.meet(labels.target, labels.value);
        match self {
            RuleSet::AccessControl | RuleSet::Capability => None,
            RuleSet::ExplicitProvenance => Some(explicit),
            RuleSet::FullProvenance => Some(order.meet(explicit, labels.branch)),
        }
    }
}

/// "an endorsed assignment passes [..] when the meet of all labels judged stands
/// at or above the slot's owner, or at or above the floor" (document 02, N6). Of
/// a block that is not endorsed, which has no floor, the labels "both stand at or
/// above the owner" just when their meet does.
fn reaches(order: &Order, meet: Principal, owner: Principal, floor: Option<Principal>) -> bool {
    let above_floor = floor.is_some_and(|floor| order.at_or_below(floor, meet));
    order.at_or_below(owner, meet) || above_floor
}
