//! Expressions that give what is wanted of them, and any others.

use super::bounds::Bound;
use super::{slots_where, Author};
use crate::expressions::{Expression, Operator};
use crate::values::{Integer, Kind, Value};

/// What an expression is to give: a value of this kind, with a label within the
/// bound. It may be so deep, and is an operation so often, in
/// percent.
#[derive(Debug, Clone, Copy)]
struct Wanted {
    kind: Kind,
    bound: Bound,
    depth: usize,
    operations: usize,
}

impl Wanted {
    fn of_kind(self, kind: Kind) -> Wanted {
        Wanted { kind, ..self }
    }

    fn at_most(self, depth: usize) -> Wanted {
        Wanted { depth, ..self }
    }
}

impl Author<'_> {
    pub(super) fn target(&mut self, slot: u8, bound: Bound) -> Expression {
        if !self.minds(self.care.kinds) {
            return self.any_expression();
        }
        let wanted = Value::WriteView(slot);
        let read = match self.random.percent(40) {
            true => self.reading(|value| value == wanted, bound, self.most_depth),
            false => None,
        };
        read.unwrap_or(Expression::literal(wanted))
    }

    /// Mostly the slot keeps its kind, so that later reads find what they
    /// expect.
    pub(super) fn value_for(&mut self, slot: u8, bound: Bound) -> Expression {
        let kind = if self.random.percent(70) {
            self.stage.values[usize::from(slot)].kind()
        } else {
            Kind::random(self.random, self.stage.values.len())
        };
        self.expression_of(kind, bound)
    }

    pub(super) fn guard(&mut self) -> Expression {
        if self.minds(self.care.kinds) {
            self.expression_of(Kind::Truth, Bound::default())
        } else {
            self.any_expression()
        }
    }

    fn expression_of(&mut self, kind: Kind, bound: Bound) -> Expression {
        let operations = self.random.pick(&[0, 20, 20, 20, 60, 100]);
        self.expression(Wanted {
            kind,
            bound,
            depth: self.most_depth,
            operations,
        })
    }

    fn expression(&mut self, wanted: Wanted) -> Expression {
        if !self.minds(self.care.kinds) {
            return self.any_within(wanted.depth);
        }
        if wanted.depth > 0 && self.random.percent(wanted.operations) {
            if let Some(operation) = self.operation(wanted) {
                return operation;
            }
        }
        let views_minded = self.minds(self.care.views);
        let (table, region) = (self.stage.table, self.region);
        let allowed = |value| match value {
            Value::WriteView(slot) if views_minded => {
                table.lattice.at_or_below(table.owner(slot), region)
            }
            _ => true,
        };
        if self.random.percent(65) {
            let suits = |value: Value| value.kind() == wanted.kind && allowed(value);
            if let Some(found) = self.reading(suits, wanted.bound, wanted.depth) {
                return found;
            }
        }
        let literal = Value::random_of(self.random, wanted.kind, self.stage.values.len());
        if allowed(literal) {
            Expression::literal(literal)
        } else {
            Expression::literal(Value::Integer(0))
        }
    }

    /// An operation that gives this; none gives a view. One operand may use all
    /// the depth that is left, the other is small, so that code stays short.
    fn operation(&mut self, wanted: Wanted) -> Option<Expression> {
        let operator = match wanted.kind {
            Kind::Integer => self.random.pick(&[Operator::Sum, Operator::Difference]),
            Kind::Truth => self.random.pick(&[Operator::LessThan, Operator::Equal]),
            Kind::ReadView | Kind::WriteView => return None,
        };
        let deep = wanted.at_most(wanted.depth - 1);
        let small = Wanted {
            depth: deep.depth.min(2),
            operations: deep.operations.min(20),
            ..deep
        };
        let slots = self.stage.values.len();
        if slots > 0 && !self.minds(self.care.views) && self.random.one_in(4) {
            return Some(self.operation_on_view(operator, small));
        }
        let (left, right) = match self.random.one_in(2) {
            true => (deep, small),
            false => (small, deep),
        };
        let kinds = self.operand_kinds(operator);
        let left = self.expression(left.of_kind(kinds[0]));
        let right = match operator {
            Operator::Equal => self.compared(&left, right.of_kind(kinds[1])),
            _ => self.expression(right.of_kind(kinds[1])),
        };
        Some(Expression::operation(operator, left, right))
    }

    /// Two kinds that are right for it, if that is minded.
    fn operand_kinds(&mut self, operator: Operator) -> [Kind; 2] {
        let slots = self.stage.values.len();
        let any = Kind::random(self.random, slots);
        match operator {
            _ if !self.minds(self.care.kinds) => [any, Kind::random(self.random, slots)],
            Operator::Equal => [any, any],
            _ => [Kind::Integer; 2],
        }
    }

    /// A write view of any slot is an operand, beside something of any kind.
    fn operation_on_view(&mut self, operator: Operator, wanted: Wanted) -> Expression {
        let slots = self.stage.values.len();
        let view = Value::random_of(self.random, Kind::WriteView, slots);
        let kind = Kind::random(self.random, slots);
        let (view, other) = (Expression::literal(view), wanted.of_kind(kind));
        let other = self.expression(other);
        match self.random.one_in(2) {
            true => Expression::operation(operator, view, other),
            false => Expression::operation(operator, other, view),
        }
    }

    /// What stands beside this operand of `equal`: the same again, its value or
    /// nearly that, or another of its kind or of any.
    fn compared(&mut self, left: &Expression, wanted: Wanted) -> Expression {
        let value = self.stage.evaluate(left).map(|(value, _)| value);
        match (self.random.below(6), value) {
            (0, _) => left.clone(),
            (1, Some(value)) => Expression::literal(value),
            (2, Some(Value::Integer(integer))) => {
                let bit = self.random.below(8 * Value::PAYLOAD);
                let turned: Integer = integer ^ (1 << bit);
                Expression::literal(Value::Integer(turned))
            }
            (3, _) => {
                let kind = Kind::random(self.random, self.stage.values.len());
                self.expression(wanted.of_kind(kind))
            }
            _ => self.expression(wanted),
        }
    }

    /// Reads in a row that give such a value, through slots whose owners stay
    /// within the bound.
    pub(super) fn reading(
        &mut self,
        wanted: impl Fn(Value) -> bool,
        bound: Bound,
        most: usize,
    ) -> Option<Expression> {
        if most == 0 {
            return None;
        }
        let ends = slots_where(&self.stage.values, |_, value| wanted(value));
        let mut slot = self.pick_within(&ends, bound)?;
        let (table, values) = (self.stage.table, &self.stage.values);
        let high = |slot| bound.allows(&table.lattice, table.owner(slot));
        let mut reads = 1;
        let go_on = self.random.pick(&[30, 30, 60, 100]);
        while reads < most && self.random.percent(go_on) {
            let seen_from = slots_where(values, |from, value| {
                value == Value::ReadView(slot) && high(from)
            });
            match self.random.pick_any(&seen_from) {
                Some(from) => slot = from,
                None => break,
            }
            reads += 1;
        }
        Some(Expression::reads(reads, Value::ReadView(slot)))
    }

    /// Any expression, whatever it gives.
    pub(super) fn any_expression(&mut self) -> Expression {
        self.any_within(self.most_depth)
    }

    fn any_within(&mut self, most: usize) -> Expression {
        let slots = self.stage.values.len();
        let depth = match self.random.below(20) {
            0..=9 => 0,
            10..=18 => self.random.between(1, 3),
            _ => self.random.between(1, Expression::MOST_DEPTH + 1),
        };
        Expression::of_depth(self.random, depth.min(most), slots)
    }
}
