//! Expressions: literals, reads and the four operations.

use crate::build_error::BuildError;
use crate::value::Value;

/// The first byte of a literal.
pub const LITERAL: u8 = 0x10;
/// The first byte of a read.
pub const READ: u8 = 0x11;
/// The first byte of a sum.
pub const SUM: u8 = 0x12;
/// The first byte of a difference.
pub const DIFFERENCE: u8 = 0x13;
/// The first byte of a less-than.
pub const LESS_THAN: u8 = 0x14;
/// The first byte of an equal.
pub const EQUAL: u8 = 0x15;
/// How deep an expression nests, reads and operations together; a literal has
/// depth 0.
pub const MOST_NESTED: usize = 8;

/// An expression, well-formed.
#[derive(Debug, Clone, PartialEq, Eq)]
pub struct Expression {
    bytes: Vec<u8>,
    /// How deep reads and operations nest in it.
    depth: usize,
}

impl Expression {
    /// The bytes of its code.
    pub fn bytes(&self) -> &[u8] {
        &self.bytes
    }

    /// What is known by this first byte, and the expressions that follow it.
    fn around(first: u8, inner: &[Expression]) -> Result<Expression, BuildError> {
        let deepest = inner.iter().map(|part| part.depth).max();
        let depth = 1 + deepest.unwrap_or(0);
        if depth > MOST_NESTED {
            return Err(BuildError::Nested(depth));
        }
        let inner = inner.iter().flat_map(Expression::bytes);
        let bytes = [first].iter().chain(inner).copied().collect();
        Ok(Expression { bytes, depth })
    }
}

/// An expression that gives this value.
pub fn literal(value: Value) -> Expression {
    let bytes = [[LITERAL].as_slice(), &value.to_bytes()].concat();
    Expression { bytes, depth: 0 }
}

/// An expression that gives what the slot holds that another one views.
///
/// # Errors
/// [`BuildError::Nested`] for more than [`MOST_NESTED`] deep.
pub fn read_through(view: Expression) -> Result<Expression, BuildError> {
    Expression::around(READ, &[view])
}

/// So many reads in a row, the innermost one of `slot`; without any, a read view
/// of it.
///
/// # Errors
/// [`BuildError::Nested`] for more than [`MOST_NESTED`].
pub fn reads(count: usize, slot: u8) -> Result<Expression, BuildError> {
    if count > MOST_NESTED {
        return Err(BuildError::Nested(count));
    }
    let view = literal(Value::ReadView(slot));
    (0..count).try_fold(view, |view, _| read_through(view))
}

/// An expression that gives what `slot` holds.
pub fn read(slot: u8) -> Expression {
    let view = literal(Value::ReadView(slot));
    let bytes = [vec![READ], view.bytes].concat();
    Expression { bytes, depth: 1 }
}

/// The sum of two integers, which wraps at 64 bits as
/// [`wrapping_add`](i64::wrapping_add) does. The left operand is evaluated
/// first, then the right one; then both must be integers (13). Its label is the
/// meet of both labels.
///
/// # Errors
/// [`BuildError::Nested`] for more than [`MOST_NESTED`] deep.
pub fn sum(left: Expression, right: Expression) -> Result<Expression, BuildError> {
    Expression::around(SUM, &[left, right])
}

/// The left integer less the right one, which wraps at 64 bits as
/// [`wrapping_sub`](i64::wrapping_sub) does. Order, kinds and label are those of
/// [`sum`].
///
/// # Errors
/// [`BuildError::Nested`] for more than [`MOST_NESTED`] deep.
pub fn difference(left: Expression, right: Expression) -> Result<Expression, BuildError> {
    Expression::around(DIFFERENCE, &[left, right])
}

/// Whether the left integer is less than the right one, both as signed: a truth
/// value. Order, kinds and label are those of [`sum`].
///
/// # Errors
/// [`BuildError::Nested`] for more than [`MOST_NESTED`] deep.
pub fn less_than(left: Expression, right: Expression) -> Result<Expression, BuildError> {
    Expression::around(LESS_THAN, &[left, right])
}

/// Whether two values, of any kinds, agree in kind and payload: a truth value.
/// Order and label are those of [`sum`].
///
/// # Errors
/// [`BuildError::Nested`] for more than [`MOST_NESTED`] deep.
pub fn equal(left: Expression, right: Expression) -> Result<Expression, BuildError> {
    Expression::around(EQUAL, &[left, right])
}
