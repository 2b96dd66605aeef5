//! What the operations give in a run, and how they are refused, by what document
//! 02 says of them (N5).

mod parts;

use muntyzhap::code::*;
use muntyzhap::sheet::Slot;
use muntyzhap::{run, Integer, Refusal, Rule, Value, MOST_BUDGET};
use parts::*;
use sheets::{BOTTOM, DIAMOND, LEFT, RIGHT, TOP};

/// The slots that a run leaves.
fn left_by(store: &[u8], programme: &[u8], rule: Rule) -> Result<Vec<Slot>, Refusal> {
    let finished = run(store, programme, rule, MOST_BUDGET)?;
    Ok(finished.slots)
}

fn store() -> Vec<u8> {
    store_of(&MASKS, &slots())
}

/// What an expression gives that is assigned to the high principal's slot.
fn given(value: Expression) -> Result<Value, Refusal> {
    let programme = programme_by(HIGH, assign(1, value));
    let end = left_by(&store(), &programme, Rule::FullProvenance)?;
    Ok(end[1].value())
}

/// The number by which a block is refused: the low principal's, under rule 1.
fn refused_low(command: Command) -> Option<u32> {
    let end = left_by(&store(), &programme_by(LOW, command), Rule::Capability);
    end.err().map(|refusal| refusal.number())
}

/// The same of an expression that is assigned to its own slot.
fn refusal_of(value: Expression) -> Option<u32> {
    refused_low(assign(0, value))
}

/// What the low principal's block may not have under rule 1.
fn forbidden() -> Expression {
    literal(Value::WriteView(1))
}

/// A read that needs a read view and has none.
fn unreadable() -> Expression {
    built(read_through(integer(0)))
}

/// "12 sum and 13 difference of two integers, both wrapping at 64 bits"
#[test]
fn sums_and_differences_wrap_at_64_bits() {
    for left in TELLING {
        for right in TELLING {
            let given = |operation: Result<Expression, _>| given(built(operation));
            let (sum, difference) = (
                given(sum(integer(left), integer(right))),
                given(difference(integer(left), integer(right))),
            );
            let [added, taken] = [left.wrapping_add(right), left.wrapping_sub(right)];
            assert_eq!(sum, Ok(Value::Integer(added)), "{left} + {right}");
            assert_eq!(difference, Ok(Value::Integer(taken)), "{left} - {right}");
        }
    }
}

/// "14 less-than of two integers as signed"
#[test]
fn less_than_is_of_signed_integers() {
    for left in TELLING {
        for right in TELLING {
            let given = given(built(less_than(integer(left), integer(right))));
            assert_eq!(given, Ok(Value::Truth(left < right)), "{left} < {right}");
        }
    }
}

/// Values that differ in kind or in payload, or in both.
const VALUES: [Value; 9] = [
    Value::Integer(0),
    Value::Integer(1),
    Value::Integer(Integer::MIN),
    Value::Truth(false),
    Value::Truth(true),
    Value::ReadView(0),
    Value::ReadView(1),
    Value::WriteView(0),
    Value::WriteView(1),
];

/// "15 equal, true when kind and payload agree, for values of any kinds"
#[test]
fn equal_compares_kind_and_payload() {
    for (place, left) in VALUES.into_iter().enumerate() {
        for (other, right) in VALUES.into_iter().enumerate() {
            let given = given(built(equal(literal(left), literal(right))));
            let agree = Value::Truth(place == other);
            assert_eq!(given, Ok(agree), "{left} and {right}");
        }
    }
}

#[test]
fn sum_difference_and_less_than_are_of_integers() {
    let refused = Err(Refusal::WrongKind(stop(0, 0, 0)));
    for operation in [sum, difference, less_than] {
        for value in VALUES {
            let whole = matches!(value, Value::Integer(_));
            let value = literal(value);
            for (left, right) in [(value.clone(), integer(1)), (integer(1), value)] {
                let given = given(built(operation(left, right)));
                assert_eq!(given.is_ok(), whole);
                assert!(whole || given == refused, "{given:?}");
            }
        }
    }
}

/// "The left one is evaluated first, then the right; then kinds are judged, by
/// 13." Rule 1 judges the operands of `equal` too.
#[test]
fn the_left_operand_is_first_then_the_right_then_kinds() {
    for operation in [sum, difference, less_than, equal] {
        let of = |left, right| refusal_of(built(operation(left, right)));
        assert_eq!(of(unreadable(), forbidden()), Some(13));
        assert_eq!(of(forbidden(), unreadable()), Some(15));
        assert_eq!(of(truth(true), forbidden()), Some(15), "the kind waits");
        assert_eq!(of(integer(1), forbidden()), Some(15));
        assert_eq!(of(integer(1), integer(1)), None);
    }
}

/// No operation gives a view, and a sum or a difference no truth value.
#[test]
fn what_an_operation_gives_is_judged_by_its_place() {
    let two = |operation: fn(_, _) -> _| built(operation(integer(2), integer(2)));
    for operation in [sum, difference, less_than, equal] {
        let through = built(read_through(two(operation)));
        assert_eq!(refusal_of(through), Some(13));
        let target = assignment(two(operation), integer(1));
        assert_eq!(refused_low(target), Some(13));
    }
    let above = built(sum(integer(1), forbidden()));
    assert_eq!(refusal_of(built(read_through(above))), Some(15));
    let guarded = |guard| refused_low(built(if_command(guard, skip(), skip())));
    assert_eq!(guarded(two(sum)), Some(13));
    assert_eq!(guarded(two(difference)), Some(13));
    assert_eq!(guarded(two(less_than)), None);
    assert_eq!(guarded(two(equal)), None);
}

/// A slot of each principal of the diamond, numbered like its owner.
fn diamond() -> [Slot; 4] {
    [LEFT, RIGHT, BOTTOM, TOP].map(|owner| slot(owner, Value::Integer(i64::from(owner))))
}

/// "The label is the meet of both labels": that of two unrelated principals is
/// the one below both.
#[test]
fn the_label_is_the_meet_of_both() {
    let operands = [(LEFT, RIGHT), (RIGHT, LEFT), (TOP, LEFT), (LEFT, TOP)];
    let store = store_of(&DIAMOND, &diamond());
    let refused = Err(Refusal::ProvenanceTooLow(stop(0, 0, 0)));
    for operation in [sum, difference, less_than, equal] {
        for (left, right) in operands {
            for to in [LEFT, RIGHT, BOTTOM, TOP] {
                let value = built(operation(read(left), read(right)));
                let programme = programme_by(TOP, assign(to, value));
                let end = left_by(&store, &programme, Rule::FullProvenance);
                let related = left == TOP || right == TOP;
                let passes = to == BOTTOM || related && to == LEFT;
                assert_eq!(end.is_ok(), passes, "{left} and {right} to {to}");
                assert!(passes || end == refused, "{end:?}");
            }
        }
    }
}

/// while i < n do (sum := sum + i; i := i + 1)
#[test]
fn a_loop_counts() {
    const ROUNDS: i64 = 1000;
    let (i, n, total) = (0, 1, 2);
    let slots = [0, ROUNDS, 0].map(|integer| slot(LOW, Value::Integer(integer)));
    let body = built(sequence(&[
        assign(total, built(sum(read(total), read(i)))),
        assign(i, built(sum(read(i), integer(1)))),
    ]));
    let guard = built(less_than(read(i), read(n)));
    let counting = programme_by(LOW, built(while_command(guard, body)));
    for rule in Rule::ALL {
        let end = left_by(&store_of(&MASKS, &slots), &counting, rule);
        let values = end.map(|end| [0, 1, 2].map(|place: usize| end[place].value()));
        let expected = [ROUNDS, ROUNDS, ROUNDS * (ROUNDS - 1) / 2];
        assert_eq!(values, Ok(expected.map(Value::Integer)));
    }
}
