//! Workloads of sums and comparisons.

use muntyzhap::code::*;
use muntyzhap::{BuildError, Integer, Value, MOST_BUDGET};

use crate::workloads::{chain, Body, Workload};

/// How far the counting loop counts: each round has three steps, and one more
/// guard ends the loop with the budget.
pub const COUNTED: u32 = (MOST_BUDGET - 1) / 3;
pub const COUNTING_STEPS: u32 = 3 * COUNTED + 1;
pub const COUNTED_SUM: u64 = COUNTED as u64 * (COUNTED as u64 - 1) / 2;

/// (i): while i < n do (total := total + i; i := i + 1)
pub fn counting() -> Result<Workload, BuildError> {
    let (i, n, total) = (0, 1, 2);
    let body = sequence(&[
        assign(total, sum(read(total), read(i))?),
        assign(i, sum(read(i), one())?),
    ])?;
    let code = while_command(less_than(read(i), read(n))?, body)?;
    let values = [0, COUNTED.into(), 0].map(Value::Integer);
    Workload::new("i  a counting loop", &values, &[code])
}

/// (j): expressions as large as they may be, each arranged in another way. Three
/// have 511 nodes, 255 operations over 256 literals; the last has reads for
/// literals and is less deep by that.
pub fn of_expressions() -> Result<Vec<Workload>, BuildError> {
    Ok(vec![
        guarded("j  511 nodes, sums", twice(sums(MOST_NESTED - 1, one())?)?)?,
        guarded("j  511 nodes, comparisons", comparisons(MOST_NESTED)?)?,
        guarded("j  511 nodes, mixed", twice(mixed(MOST_NESTED - 1)?)?)?,
        guarded(
            "j  127 operations, 128 reads",
            twice(sums(MOST_NESTED - 2, read(0))?)?,
        )?,
    ])
}

/// The step that evaluates most: 8 reads for the target, and 255 operations over
/// 256 literals for the value.
pub fn long_step() -> Result<Workload, BuildError> {
    let workload = long_assignments()?.forever("h  8 reads, 255 operations")?;
    Ok(few_by_second(workload))
}

/// As many of these assignments as a programme can have.
pub fn long_assignments() -> Result<Body, BuildError> {
    const MANY: u32 = 5;
    let mut values = chain(0, Value::WriteView(MOST_NESTED as u8));
    values.push(Value::Integer(0));
    let each = assignment(reads(MOST_NESTED, 0)?, mixed(MOST_NESTED)?);
    Ok(Body {
        values,
        command: sequence(&vec![each; MANY as usize])?,
        steps: MANY,
    })
}

/// Steps enough that the reading of the sheets counts for little.
const FEW_STEPS: u32 = 10_000;

/// The same, with few steps for the second runner, and in few rounds.
pub fn few_by_second(workload: Workload) -> Workload {
    Workload {
        second_budget: FEW_STEPS,
        rounds: 2,
        ..workload
    }
}

/// A loop whose steps are guards, each an evaluation of this expression, which
/// is true.
fn guarded(name: &str, guard: Expression) -> Result<Workload, BuildError> {
    let code = while_command(guard, skip())?;
    Ok(Workload {
        budget: FEW_STEPS,
        second_budget: FEW_STEPS,
        ..Workload::new(name, &[Value::Integer(1)], &[code])?
    })
}

pub fn one() -> Expression {
    literal(Value::Integer(1))
}

/// True, at twice the cost.
fn twice(operand: Expression) -> Result<Expression, BuildError> {
    equal(operand.clone(), operand)
}

/// A full tree of sums, so deep, over one expression.
fn sums(deep: usize, leaf: Expression) -> Result<Expression, BuildError> {
    (0..deep).try_fold(leaf, |operand, _| sum(operand.clone(), operand))
}

/// A full tree of `equal` over less-thans, so deep: true.
fn comparisons(deep: usize) -> Result<Expression, BuildError> {
    let less = less_than(one(), literal(Value::Integer(2)))?;
    (1..deep).try_fold(less, |operand, _| twice(operand))
}

/// A full tree, so deep, of sums and differences in no order that a processor
/// could guess.
fn mixed(deep: usize) -> Result<Expression, BuildError> {
    mixed_at(deep, 1)
}

/// The part of it that has this number, the parts of part n being 2n and 2n + 1.
fn mixed_at(deep: usize, number: u32) -> Result<Expression, BuildError> {
    if deep == 0 {
        return Ok(literal(Value::Integer(Integer::from(number))));
    }
    let (left, right) = (
        mixed_at(deep - 1, 2 * number)?,
        mixed_at(deep - 1, 2 * number + 1)?,
    );
    match scattered_bit(number) {
        true => sum(left, right),
        false => difference(left, right),
    }
}

/// A bit of a number's product with a large odd one.
fn scattered_bit(number: u32) -> bool {
    number.wrapping_mul(0x9E37_79B9) >> 31 == 1
}
