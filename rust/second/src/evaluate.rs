//! Expressions: what they give, and what is wrong in one. Refusals 13 and 15.

use crate::code::{Expression, Operation};
use crate::operation::Operator;
use crate::order::Principal;
use crate::programme::Region;
use crate::run::Run;
use crate::told::Wanted;
use crate::value::{SlotNumber, Value};
use crate::watch::{Trail, Watch};

/// What an expression gives: a value and its label, and how it came about.
pub(crate) struct Labelled<T> {
    pub value: Value,
    pub label: Principal,
    pub trail: T,
}

/// What is wrong in an expression.
pub(crate) enum Fault<T> {
    /// These values have the wrong kinds; only an operation has two.
    WrongKind(Wanted, Vec<Labelled<T>>),
    /// A write view turned up: of this slot, which that principal owns.
    WriteViewNotAllowed {
        slot: SlotNumber,
        owner: Principal,
        trail: T,
    },
}

impl<T> Fault<T> {
    /// That this value is of the wrong kind.
    #[cold]
    pub fn wrong_kind(wanted: Wanted, found: Labelled<T>) -> Box<Fault<T>> {
        Box::new(Fault::WrongKind(wanted, vec![found]))
    }

    /// That an operation's operands are not both integers.
    #[cold]
    fn not_integers(operator: Operator, left: Labelled<T>, right: Labelled<T>) -> Box<Fault<T>> {
        let wanted = Wanted::Integers(operator.byte());
        Box::new(Fault::WrongKind(wanted, vec![left, right]))
    }

    #[cold]
    fn not_allowed(slot: SlotNumber, owner: Principal, trail: T) -> Box<Fault<T>> {
        Box::new(Fault::WriteViewNotAllowed { slot, owner, trail })
    }
}

/// What an expression gives, or what is wrong in it.
type Given<T> = Result<Labelled<T>, Box<Fault<T>>>;

impl<W: Watch> Run<'_, W> {
    /// Works an expression "from its literal outwards": at each stage the
    /// value that turns up is judged by 15 before its kind is by 13.
    pub fn evaluate(&self, region: Region, expression: &Expression) -> Given<W::Trail> {
        let given = match expression {
            Expression::Literal(value) => Labelled {
                value: *value,
                label: self.store.table.order.top(),
                trail: Trail::literal(),
            },
            Expression::Read(view) => self.read(region, view)?,
            Expression::Operation(operation) => self.operate(region, operation)?,
        };
        match self.rule.denied(&self.store.table, region, given.value) {
            None => Ok(given),
            Some((slot, owner)) => Err(Fault::not_allowed(slot, owner, given.trail)),
        }
    }

    /// "a read needs a read view and gives that slot's present value"
    fn read(&self, region: Region, view: &Expression) -> Given<W::Trail> {
        let view = self.evaluate(region, view)?;
        let Value::ReadView(slot) = view.value else {
            return Err(Fault::wrong_kind(Wanted::ReadView, view));
        };
        let table = &self.store.table;
        let (owner, value) = (table.owner(slot), self.store.value(slot));
        Ok(Labelled {
            value,
            label: table.order.meet(view.label, owner),
            trail: Trail::read(view.trail, slot, owner, value),
        })
    }

    /// "The label is the meet of both labels. The left one is evaluated first,
    /// then the right; then kinds are judged, by 13." (document 02, N5)
    fn operate(&self, region: Region, operation: &Operation) -> Given<W::Trail> {
        let left = self.evaluate(region, &operation.left)?;
        let right = self.evaluate(region, &operation.right)?;
        let operator = operation.operator;
        match operator.apply(left.value, right.value) {
            Some(value) => Ok(Labelled {
                value,
                label: self.store.table.order.meet(left.label, right.label),
                trail: Trail::computed(operator, left.trail, right.trail),
            }),
            None => Err(Fault::not_integers(operator, left, right)),
        }
    }
}
