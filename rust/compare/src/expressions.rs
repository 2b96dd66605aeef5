//! Expressions as trees, and their bytes.

use crate::random::Random;
use crate::sheets::{Part, Sheet};
use crate::values::{Kind, Value};

/// One of the four operations; each case stands with its byte.
#[derive(Debug, Clone, Copy, PartialEq, Eq)]
pub enum Operator {
    Sum = 0x12,
    Difference = 0x13,
    LessThan = 0x14,
    Equal = 0x15,
}

impl Operator {
    pub const ALL: [Operator; 4] = [
        Operator::Sum,
        Operator::Difference,
        Operator::LessThan,
        Operator::Equal,
    ];

    pub fn byte(self) -> u8 {
        self as u8
    }

    pub fn from_byte(byte: u8) -> Option<Operator> {
        let mut all = Operator::ALL.into_iter();
        all.find(|operator| operator.byte() == byte)
    }

    /// What it gives, unless a kind is wrong for it.
    pub fn apply(self, left: Value, right: Value) -> Option<Value> {
        match (self, left, right) {
            (Operator::Equal, _, _) => Some(Value::Truth(left == right)),
            (Operator::Sum, Value::Integer(left), Value::Integer(right)) => {
                Some(Value::Integer(left.wrapping_add(right)))
            }
            (Operator::Difference, Value::Integer(left), Value::Integer(right)) => {
                Some(Value::Integer(left.wrapping_sub(right)))
            }
            (Operator::LessThan, Value::Integer(left), Value::Integer(right)) => {
                Some(Value::Truth(left < right))
            }
            _ => None,
        }
    }

    /// Whether an operand of this kind is right for it.
    pub fn takes(self, kind: Kind) -> bool {
        self == Operator::Equal || kind == Kind::Integer
    }
}

#[derive(Debug, Clone, PartialEq, Eq)]
pub enum Expression {
    Literal(Value),
    Read(Box<Expression>),
    /// The left operand and the right one.
    Operation(Operator, Box<[Expression; 2]>),
}

impl Expression {
    /// "Expressions may now nest 8 deep, reads and operations together."
    pub const MOST_DEPTH: usize = 8;
    pub const LITERAL: u8 = 0x10;
    pub const READ: u8 = 0x11;

    pub fn literal(literal: Value) -> Expression {
        Expression::Literal(literal)
    }

    pub fn read(view: Expression) -> Expression {
        Expression::Read(Box::new(view))
    }

    pub fn operation(operator: Operator, left: Expression, right: Expression) -> Expression {
        Expression::Operation(operator, Box::new([left, right]))
    }

    pub fn read_of(slot: u8) -> Expression {
        Expression::reads(1, Value::ReadView(slot))
    }

    /// So many reads in a row of a literal.
    pub fn reads(count: usize, literal: Value) -> Expression {
        let literal = Expression::literal(literal);
        (0..count).fold(literal, |view, _| Expression::read(view))
    }

    /// An expression that is just so deep: along one path reads and operations
    /// in some mix, and literals beside it.
    pub fn of_depth(random: &mut Random, depth: usize, slots: usize) -> Expression {
        let literal = |random: &mut Random| Expression::literal(Value::random(random, slots));
        let reads = random.pick(&[0, 20, 50, 80, 100]);
        let inmost = literal(random);
        (0..depth).fold(inmost, |inner, _| {
            if random.percent(reads) {
                return Expression::read(inner);
            }
            let operator = random.pick(&Operator::ALL);
            match random.one_in(2) {
                true => Expression::operation(operator, inner, literal(random)),
                false => Expression::operation(operator, literal(random), inner),
            }
        })
    }

    /// As many operations of integers as so deep an expression can have.
    pub fn full(random: &mut Random, depth: usize) -> Expression {
        let Some(inner) = depth.checked_sub(1) else {
            return Expression::literal(Value::random_of(random, Kind::Integer, 0));
        };
        let operator = random.pick(&[Operator::Sum, Operator::Difference]);
        let left = Expression::full(random, inner);
        Expression::operation(operator, left, Expression::full(random, inner))
    }

    /// How deep reads and operations nest.
    pub fn depth(&self) -> usize {
        match self {
            Expression::Literal(_) => 0,
            Expression::Read(view) => 1 + view.depth(),
            Expression::Operation(_, operands) => {
                let [left, right] = &**operands;
                1 + left.depth().max(right.depth())
            }
        }
    }

    pub fn has_operation(&self) -> bool {
        match self {
            Expression::Literal(_) => false,
            Expression::Read(view) => view.has_operation(),
            Expression::Operation(..) => true,
        }
    }

    pub fn write_to(&self, sheet: &mut Sheet) {
        match self {
            Expression::Literal(value) => {
                sheet.push(Part::Expression, &[Expression::LITERAL]);
                sheet.push_value(*value);
            }
            Expression::Read(view) => {
                sheet.push(Part::Expression, &[Expression::READ]);
                view.write_to(sheet);
            }
            Expression::Operation(operator, operands) => {
                sheet.push(Part::Expression, &[operator.byte()]);
                operands.iter().for_each(|operand| operand.write_to(sheet));
            }
        }
    }
}

#[cfg(test)]
mod tests {
    use super::*;

    #[test]
    fn expressions_are_as_deep_as_was_asked() {
        let mut random = Random::of_case(23, 0);
        for depth in 0..=9 {
            for _ in 0..50 {
                let expression = Expression::of_depth(&mut random, depth, 3);
                assert_eq!(expression.depth(), depth);
            }
            assert_eq!(Expression::full(&mut random, depth).depth(), depth);
        }
    }

    /// 255 bytes of operations and 256 literals.
    #[test]
    fn a_full_expression_has_255_operations() {
        let mut sheet = Sheet::default();
        Expression::full(&mut Random::of_case(24, 0), 8).write_to(&mut sheet);
        assert_eq!(sheet.bytes.len(), 255 + 256 * (1 + Value::WIDTH));
    }
}
