//! Watches a run and tells what it sees.

use crate::answer::Answer;
use crate::code::{Command, Form};
use crate::evaluate::{Fault, Labelled};
use crate::operation::Operator;
use crate::order::Principal;
use crate::rule::Objection;
use crate::step::{Assignment, Cause};
use crate::told::{
    Found, Guarding, Origin, Part, ReadSeen, Role, Seen, Step, StepKind, Stopped, Told, Wanted, Why,
};
use crate::value::{SlotNumber, Value};
use crate::watch::{Guard, Here, Trail, Watch};
use crate::way::Taken;

/// Calls a runner with what watches it, and says what that saw.
pub(crate) fn told(each: &mut dyn FnMut(&Step), call: impl FnOnce(&mut Telling) -> Answer) -> Told {
    let mut telling = Telling {
        each,
        judged: None,
        guards: Vec::new(),
        stopped: None,
    };
    let answer = call(&mut telling);
    Told {
        answer,
        stopped: telling.stopped,
    }
}

pub(crate) struct Telling<'a> {
    /// Is told each step.
    each: &'a mut dyn FnMut(&Step),
    /// The guard that was judged last, until a part is taken by it.
    judged: Option<Seen>,
    /// Of the parts that are being run, the outermost first.
    guards: Vec<Guarding>,
    stopped: Option<Stopped>,
}

/// Where a value came from, and every slot that was read for it.
pub(crate) struct Traced {
    from: Origin,
    reads: Vec<ReadSeen>,
}

impl Trail for Traced {
    fn literal() -> Traced {
        Traced {
            from: Origin::Literal,
            reads: Vec::new(),
        }
    }

    fn read(view: Traced, slot: SlotNumber, owner: Principal, value: Value) -> Traced {
        let mut reads = view.reads;
        reads.push(ReadSeen {
            slot: slot.index(),
            owner: owner.number(),
            value: value.into(),
        });
        let from = Origin::Slot(slot.index());
        Traced { from, reads }
    }

    fn computed(operator: Operator, left: Traced, right: Traced) -> Traced {
        let mut reads = left.reads;
        reads.extend(right.reads);
        let from = Origin::Operation(operator.byte());
        Traced { from, reads }
    }
}

impl From<Labelled<Traced>> for Seen {
    fn from(given: Labelled<Traced>) -> Seen {
        Seen {
            value: given.value.into(),
            label: given.label.number(),
            reads: given.trail.reads,
        }
    }
}

impl Telling<'_> {
    fn step(&mut self, here: Here, number: u32, what: StepKind) {
        (self.each)(&Step {
            number,
            block: here.block,
            offset: here.offset,
            branch: here.branch.number(),
            what,
        });
    }
}

impl Watch for Telling<'_> {
    type Trail = Traced;

    fn judged(&mut self, here: Here, steps: u32, guard: Guard<Traced>) {
        let Guard {
            guard,
            holds,
            inside,
        } = guard;
        let guard = Seen::from(guard);
        self.judged = Some(guard.clone());
        let inside = inside.number();
        let what = StepKind::Guard {
            guard,
            holds,
            inside,
        };
        self.step(here, steps, what);
    }

    fn wrote(&mut self, here: Here, steps: u32, old: Value, made: Assignment<Traced>) {
        let what = StepKind::Write {
            slot: made.slot.index(),
            owner: made.owner.number(),
            old: old.into(),
            target: made.target.into(),
            value: made.value.into(),
        };
        self.step(here, steps, what);
    }

    /// A part that a run is taken up in comes before any guard is judged, so that
    /// there is none to keep.
    fn entered(&mut self, command: &Command, taken: Taken) {
        if let Some(part) = part(command, taken.child) {
            self.guards.push(Guarding {
                offset: command.offset,
                part,
                label: taken.label.number(),
                guard: self.judged.take(),
            });
        }
    }

    fn left(&mut self, command: &Command) {
        if is_guarded(command) {
            self.guards.pop();
        }
    }

    fn stopped(&mut self, here: Here, steps: u32, cause: Cause<Traced>) {
        self.stopped = Some(Stopped {
            block: here.block,
            offset: here.offset,
            steps,
            region: here.region.principal.number(),
            floor: here.region.endorsed_down_to.map(Principal::number),
            branch: here.branch.number(),
            guards: std::mem::take(&mut self.guards),
            why: why(cause),
        });
    }
}

fn is_guarded(command: &Command) -> bool {
    matches!(command.form, Form::If { .. } | Form::While { .. })
}

/// The part that a guard led to, if one did.
fn part(command: &Command, child: u8) -> Option<Part> {
    match (&command.form, child) {
        (Form::If { .. }, Command::THEN_PART) => Some(Part::IfThen),
        (Form::If { .. }, _) => Some(Part::IfElse),
        (Form::While { .. }, _) => Some(Part::WhileBody),
        _ => None,
    }
}

fn why(cause: Cause<Traced>) -> Why {
    match cause {
        Cause::InExpression(role, fault) => match *fault {
            Fault::WrongKind(wanted, found) => wrong_kind(role, wanted, found),
            Fault::WriteViewNotAllowed { slot, owner, trail } => Why::WriteViewNotAllowed {
                role,
                slot: slot.index(),
                owner: owner.number(),
                read_from: slot_of(trail.from),
            },
        },
        Cause::NotPassed(objection, assignment) => not_passed(objection, assignment),
        Cause::BudgetSpent(budget) => Why::BudgetSpent { budget },
        Cause::JournalFull(entries) => Why::JournalFull { entries },
    }
}

fn wrong_kind(role: Role, wanted: Wanted, values: Vec<Labelled<Traced>>) -> Why {
    let (mut found, mut reads) = (Vec::new(), Vec::new());
    for given in values {
        found.push(Found {
            value: given.value.into(),
            from: given.trail.from,
        });
        reads.extend(given.trail.reads);
    }
    Why::WrongKind {
        role,
        wanted,
        found,
        reads,
    }
}

fn not_passed(objection: Objection, assignment: Assignment<Traced>) -> Why {
    let slot = assignment.slot.index();
    let owner = assignment.owner.number();
    match objection {
        Objection::NoAuthority => Why::NoAuthority {
            slot,
            owner,
            target: assignment.target.into(),
        },
        Objection::ProvenanceTooLow {
            meet,
            branch_judged,
        } => Why::ProvenanceTooLow {
            slot,
            owner,
            target: assignment.target.into(),
            value: assignment.value.into(),
            branch_judged,
            meet: meet.number(),
        },
    }
}

/// No operation gives a view, so that one which was not read is a literal.
fn slot_of(origin: Origin) -> Option<usize> {
    match origin {
        Origin::Slot(slot) => Some(slot),
        Origin::Literal | Origin::Operation(_) => None,
    }
}
