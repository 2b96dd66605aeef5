//! Single steps of a run: guards and assignments. Refusals 13 to 18.
//!
//! A refusal is boxed and put together out of line, and the steps are inlined: so a
//! run that nothing watches takes about as long as if it could not be watched.

use crate::answer::Refusal;
use crate::code::Expression;
use crate::evaluate::{Fault, Labelled};
use crate::journal::Write;
use crate::order::Principal;
use crate::rule::{Labels, Objection};
use crate::run::Run;
use crate::told::{Role, Wanted};
use crate::value::{SlotNumber, Value};
use crate::watch::{Guard, Here, Watch};
use crate::way::Taken;

/// Which way a guard leads: whether it holds, and the branch label inside.
#[derive(Clone, Copy)]
pub(crate) struct Lead {
    pub holds: bool,
    pub inside: Principal,
}

impl Lead {
    /// Into that part.
    pub fn into_part(self, child: u8) -> Taken {
        let label = self.inside;
        Taken { child, label }
    }
}

/// An assignment whose target and value are evaluated.
pub(crate) struct Assignment<T> {
    pub slot: SlotNumber,
    /// The slot's.
    pub owner: Principal,
    pub target: Labelled<T>,
    pub value: Labelled<T>,
}

/// Why a step is refused.
pub(crate) enum Cause<T> {
    InExpression(Role, Box<Fault<T>>),
    NotPassed(Objection, Assignment<T>),
    /// The budget.
    BudgetSpent(u32),
    /// How many entries there are.
    JournalFull(usize),
}

impl<T> Cause<T> {
    #[cold]
    fn in_expression(role: Role, fault: Box<Fault<T>>) -> Box<Cause<T>> {
        Box::new(Cause::InExpression(role, fault))
    }

    #[cold]
    fn not_passed(objection: Objection, assignment: Assignment<T>) -> Box<Cause<T>> {
        Box::new(Cause::NotPassed(objection, assignment))
    }

    pub fn refusal(&self) -> Refusal {
        match self {
            Cause::InExpression(_, fault) => match **fault {
                Fault::WrongKind(..) => Refusal::WrongKind,
                Fault::WriteViewNotAllowed { .. } => Refusal::WriteViewNotAllowed,
            },
            Cause::NotPassed(Objection::NoAuthority, _) => Refusal::NoAuthority,
            Cause::NotPassed(Objection::ProvenanceTooLow { .. }, _) => Refusal::ProvenanceTooLow,
            Cause::BudgetSpent(_) => Refusal::BudgetSpent,
            Cause::JournalFull(_) => Refusal::JournalFull,
        }
    }
}

/// What a step gives, or why it is refused.
type Made<Given, T> = Result<Given, Box<Cause<T>>>;

impl<W: Watch> Run<'_, W> {
    /// One step: judges a guard, which must be a truth value. Inside a part the
    /// branch label is "the meet of the outer one and the guard's label".
    #[inline(always)]
    pub fn guard(&mut self, here: Here, guard: &Expression) -> Made<Lead, W::Trail> {
        self.judge_budget()?;
        let guard = self.evaluate_as(Role::Guard, here, guard)?;
        let Value::Truth(holds) = guard.value else {
            let fault = Fault::wrong_kind(Wanted::Truth, guard);
            return Err(Cause::in_expression(Role::Guard, fault));
        };
        let inside = self.store.table.order.meet(here.branch, guard.label);
        self.steps += 1;
        let judged = Guard {
            guard,
            holds,
            inside,
        };
        self.watch.judged(here, self.steps, judged);
        Ok(Lead { holds, inside })
    }

    /// One step: an assignment. "target evaluated first, must be a write view, then
    /// the value"; then the rule judges the assignment itself.
    #[inline]
    pub fn assignment(
        &mut self,
        here: Here,
        target: &Expression,
        value: &Expression,
    ) -> Made<(), W::Trail> {
        self.judge_budget()?;
        self.judge_journal()?;
        let target = self.evaluate_as(Role::Target, here, target)?;
        let Value::WriteView(slot) = target.value else {
            let fault = Fault::wrong_kind(Wanted::WriteView, target);
            return Err(Cause::in_expression(Role::Target, fault));
        };
        let value = self.evaluate_as(Role::Value, here, value)?;
        let assignment = Assignment {
            slot,
            owner: self.store.table.owner(slot),
            target,
            value,
        };
        match self.judge_labels(here, &assignment) {
            Ok(()) => self.write(here, assignment),
            Err(objection) => return Err(Cause::not_passed(objection, assignment)),
        }
        Ok(())
    }

    #[inline]
    fn judge_labels(&self, here: Here, made: &Assignment<W::Trail>) -> Result<(), Objection> {
        let labels = Labels {
            target: made.target.label,
            value: made.value.label,
            branch: here.branch,
        };
        let order = &self.store.table.order;
        self.rule
            .judge_assignment(order, here.region, made.owner, labels)
    }

    /// Makes an assignment that passed, with its entry where a journal is lent.
    #[inline]
    fn write(&mut self, here: Here, assignment: Assignment<W::Trail>) {
        let (slot, new) = (assignment.slot, assignment.value.value);
        let write = Write {
            block: here.block,
            offset: here.offset,
            slot,
            old: self.store.value(slot),
            new,
        };
        if let Some(journal) = &mut self.journal {
            journal.add(write);
        }
        self.store.assign(slot, new);
        self.steps += 1;
        self.watch.wrote(here, self.steps, write.old, assignment);
    }

    /// "Before each step, if steps done equal the budget, the run is spent." One
    /// that is taken up may have done more.
    fn judge_budget(&self) -> Made<(), W::Trail> {
        if self.budget.is_spent(self.steps) {
            return Err(Box::new(Cause::BudgetSpent(self.budget.steps())));
        }
        Ok(())
    }

    /// "18 when an assignment comes and no entry is free, judged after 17 and
    /// before the target is evaluated." (document 02, N7) Where none is lent, "18
    /// doesn't arise" (N8).
    fn judge_journal(&self) -> Made<(), W::Trail> {
        match self.journal.as_ref().filter(|journal| journal.is_full()) {
            Some(full) => Err(Box::new(Cause::JournalFull(full.length()))),
            None => Ok(()),
        }
    }

    /// A guard, a target or a value.
    #[inline]
    fn evaluate_as(
        &self,
        role: Role,
        here: Here,
        expression: &Expression,
    ) -> Made<Labelled<W::Trail>, W::Trail> {
        self.evaluate(here.region, expression)
            .map_err(|fault| Cause::in_expression(role, fault))
    }
}
