//! Expressions: their bytes, and how deep they nest. What is at the limit is
//! built, and the library takes it; what is past it is an error where it is made,
//! and the library refuses its bytes by 10.

mod parts;

use muntyzhap::code::{
    assign, difference, equal, less_than, read, read_through, reads, sum, Code, Expression,
    MOST_NESTED,
};
use muntyzhap::{BuildError, Place, Refusal};
use parts::*;

type Operation = fn(Expression, Expression) -> Result<Expression, BuildError>;

/// "12 sum and 13 difference .. 14 less-than .. 15 equal"
const OPERATIONS: [(u8, Operation); 4] = [
    (0x12, sum),
    (0x13, difference),
    (0x14, less_than),
    (0x15, equal),
];

/// "Each is followed by two expressions."
#[test]
fn an_operation_is_its_byte_and_two_expressions() {
    let (left, right) = (read(1), integer(-2));
    for (first, operation) in OPERATIONS {
        let made = built(operation(left.clone(), right.clone()));
        let bytes = [&[first], left.bytes(), right.bytes()].concat();
        assert_eq!(made.bytes(), bytes);
        assert_eq!(check_code(assign(0, made)), Ok(()));
    }
}

#[test]
fn eight_reads_stand_in_a_row() {
    let eight = built(reads(MOST_NESTED, 0));
    assert_eq!(check_code(assign(0, eight.clone())), Ok(()));
    assert_eq!(read_through(eight), Err(BuildError::Nested(9)));
    for count in [MOST_NESTED + 1, MOST_NESTED + 12, usize::MAX] {
        assert_eq!(reads(count, 0), Err(BuildError::Nested(count)));
    }
    let words = "reads and operations 9 deep: they nest at most 8 deep";
    assert_told(BuildError::Nested(9), words);
}

#[test]
fn reads_are_made_one_by_one_alike() {
    assert_eq!(reads(1, 7), Ok(read(7)));
    assert_eq!(read_through(read(7)), reads(2, 7));
}

/// A way to stand around an expression: a read, or an operation with it to the
/// left or to the right of a literal.
#[derive(Debug, Clone, Copy)]
enum Way {
    Read,
    Left(usize),
    Right(usize),
}

impl Way {
    fn all() -> Vec<Way> {
        let operations = 0..OPERATIONS.len();
        let sides = operations.flat_map(|number| [Way::Left(number), Way::Right(number)]);
        [Way::Read].into_iter().chain(sides).collect()
    }

    fn built_around(self, inner: Expression) -> Result<Expression, BuildError> {
        match self {
            Way::Read => read_through(inner),
            Way::Left(number) => OPERATIONS[number].1(inner, integer(1)),
            Way::Right(number) => OPERATIONS[number].1(integer(1), inner),
        }
    }

    /// The bytes that stand before the expression and after it.
    fn bytes(self) -> [Vec<u8>; 2] {
        let literal = integer(1).bytes().to_vec();
        match self {
            Way::Read => [vec![0x11], vec![]],
            Way::Left(number) => [vec![OPERATIONS[number].0], literal],
            Way::Right(number) => [[vec![OPERATIONS[number].0], literal].concat(), vec![]],
        }
    }
}

/// Nine ways, the outermost first: eight alike and one of any kind, at each
/// place.
fn nine_ways() -> Vec<[Way; MOST_NESTED + 1]> {
    let mut all = vec![];
    for usual in Way::all() {
        for odd in Way::all() {
            for place in 0..=MOST_NESTED {
                let mut ways = [usual; MOST_NESTED + 1];
                ways[place] = odd;
                all.push(ways);
            }
        }
    }
    all
}

/// An assignment of an expression with these ways around a literal, in bytes,
/// and where the innermost way starts.
fn assignment_bytes(ways: &[Way]) -> (Vec<u8>, usize) {
    let head = [&[0x21], integer(0).bytes()].concat();
    let inside = integer(0).bytes().to_vec();
    let (outer, last) = (&ways[..ways.len() - 1], ways[ways.len() - 1]);
    let before: Vec<u8> = outer
        .iter()
        .flat_map(|way| way.bytes()[0].clone())
        .collect();
    let place = head.len() + before.len();
    let [first, after] = last.bytes();
    let mut code = [head, before, first, inside, after].concat();
    code.extend(outer.iter().rev().flat_map(|way| way.bytes()[1].clone()));
    (code, place)
}

/// "Expressions may now nest 8 deep, reads and operations together; the ninth is
/// refused by 10 as before", at that byte.
#[test]
fn reads_and_operations_together_nest_8_deep() {
    for ways in nine_ways() {
        let around = |inner, way: &Way| way.built_around(inner);
        let eight = built(ways[1..].iter().rev().try_fold(integer(0), around));
        assert_eq!(check_code(assign(0, eight.clone())), Ok(()), "{ways:?}");
        let ninth = ways[0].built_around(eight);
        assert_eq!(ninth, Err(BuildError::Nested(9)), "{ways:?}");

        let (code, offset) = assignment_bytes(&ways);
        let refused = Refusal::NestedTooDeep(Place { block: 0, offset });
        let judged = check_code(Code::unjudged(code));
        assert_eq!(judged, Err(refused), "{ways:?}");
    }
}

/// Depth is not summed over operands: 255 operations over 256 literals.
#[test]
fn deep_operands_stand_beside_each_other() {
    let twice = |operand: Expression, _| sum(operand.clone(), operand);
    let full = built((0..MOST_NESTED).try_fold(integer(1), twice));
    assert_eq!(full.bytes().len(), 255 + 256 * integer(1).bytes().len());
    assert_eq!(check_code(assign(0, full.clone())), Ok(()));
    for (_, operation) in OPERATIONS {
        for [left, right] in [[&full, &integer(1)], [&integer(1), &full]] {
            let made = operation(left.clone(), right.clone());
            assert_eq!(made, Err(BuildError::Nested(9)));
        }
    }
}
