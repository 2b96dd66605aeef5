//! An expression worked out stage by stage, to tell what refuses it.

use crate::decode::Side;
use crate::expressions::{Expression, Operator};
use crate::rehearsal::Rehearsal;
use crate::values::Value;

/// What a stage is refused for.
#[derive(Debug, Clone, Copy, PartialEq, Eq)]
pub enum Cause {
    /// A write view that the region may not hold.
    WriteView,
    /// What is read is no read view.
    Read { of_operation: bool },
    /// Which operands are of a wrong kind.
    Kinds { left: bool, right: bool },
}

/// A stage that is refused.
#[derive(Debug, Clone, Copy, PartialEq, Eq)]
pub struct Fault {
    pub cause: Cause,
    /// The innermost operand that it stands in.
    pub side: Option<Side>,
    /// It is in a right operand, and the left one is of a wrong kind.
    pub waited_for: bool,
}

impl Fault {
    fn new(cause: Cause) -> Fault {
        Fault {
            cause,
            side: None,
            waited_for: false,
        }
    }

    pub fn number(&self) -> u32 {
        match self.cause {
            Cause::WriteView => 15,
            Cause::Read { .. } | Cause::Kinds { .. } => 13,
        }
    }

    fn within(mut self, side: Side) -> Fault {
        self.side = self.side.or(Some(side));
        self
    }
}

pub struct Working<'a> {
    pub stage: &'a Rehearsal<'a>,
    /// Under rule 1 the region, whose write views are judged.
    pub capability: Option<u8>,
    /// Is told of each operation and its operands.
    pub operated: &'a mut dyn FnMut(Operator, Value, Value),
}

impl Working<'_> {
    pub fn work(&mut self, expression: &Expression) -> Result<Value, Fault> {
        let value = match expression {
            Expression::Literal(value) => *value,
            Expression::Read(view) => {
                let of_operation = matches!(**view, Expression::Operation(..));
                let Value::ReadView(slot) = self.work(view)? else {
                    return Err(Fault::new(Cause::Read { of_operation }));
                };
                self.stage.values[usize::from(slot)]
            }
            Expression::Operation(operator, operands) => self.operate(*operator, operands)?,
        };
        match (self.capability, value) {
            (Some(region), Value::WriteView(slot)) if !self.may_hold(region, slot) => {
                Err(Fault::new(Cause::WriteView))
            }
            _ => Ok(value),
        }
    }

    fn operate(
        &mut self,
        operator: Operator,
        [left, right]: &[Expression; 2],
    ) -> Result<Value, Fault> {
        let left = self.work(left).map_err(|fault| fault.within(Side::Left))?;
        let wrong = |value: Value| !operator.takes(value.kind());
        let right = self.work(right).map_err(|fault| Fault {
            waited_for: fault.waited_for || wrong(left),
            ..fault.within(Side::Right)
        })?;
        (self.operated)(operator, left, right);
        operator.apply(left, right).ok_or(Fault::new(Cause::Kinds {
            left: wrong(left),
            right: wrong(right),
        }))
    }

    fn may_hold(&self, region: u8, slot: u8) -> bool {
        let table = self.stage.table;
        table.lattice.at_or_below(table.owner(slot), region)
    }
}
