//! Document 02, N5, at random: what operations give, their labels, which of
//! several faults is told, and how deep expressions nest.

mod play;
mod random;

use play::*;
use random::*;
use sheets::*;

/// Streams apart from those of the other test files.
const RESULTS: u64 = 7 << 32;
const VALUES: u64 = 8 << 32;
const FAULTS: u64 = 9 << 32;
const DEPTHS: u64 = 10 << 32;

/// How far two integers are apart that look the same in 64 bits.
const WRAP: i128 = 1 << 64;

/// What the only block's one assignment leaves in a slot of its own, under rule
/// 3, the slots before it holding these.
fn given(held: &[Bytes], expression: Bytes) -> Bytes {
    let own = integer(77);
    let slots = held.iter().chain([&own]).map(|value| (0, value.clone()));
    let slots: Vec<(u8, Bytes)> = slots.collect();
    let code = set(held.len() as i64, expression);
    let Played { answer, output, .. } = call_block(&store(&[1], &slots), 0, code, 3).play();
    assert_eq!((answer.number, answer.steps), (0, 1));
    let end = end_slots(&output).pop().expect("a slot of its own");
    assert_eq!(end.writes, 1);
    end.value
}

/// The two as literals, as reads, and one of each.
fn operands(one: &Bytes, other: &Bytes) -> [(Bytes, Bytes); 4] {
    let (left, right) = (literal(one.clone()), literal(other.clone()));
    [
        (left.clone(), right.clone()),
        (left, slot(1)),
        (slot(0), right),
        (slot(0), slot(1)),
    ]
}

/// The integer that a value of nine bytes is.
fn integer_of(value: &[u8]) -> i64 {
    assert_eq!(value[0], 0);
    i64::from_le_bytes(value[1..].try_into().expect("eight bytes"))
}

/// "12 sum and 13 difference of two integers, both wrapping at 64 bits; 14
/// less-than of two integers as signed"
#[test]
fn integers_are_added_subtracted_and_compared() {
    let mut random = Random::stream(RESULTS);
    // Results past the greatest integer, and below the least.
    let mut past = [0; 2];
    let mut across_the_sign = [0; 2];
    for case in 0..20_000 {
        let (a, b) = (random.integer(), random.integer());
        let held = [integer(a), integer(b)];
        let (left, right) = operands(&held[0], &held[1])[case % 4].clone();
        let result = |byte| given(&held, operation(byte, left.clone(), right.clone()));
        let (wide_a, wide_b) = (i128::from(a), i128::from(b));
        for (byte, exact) in [(SUM, wide_a + wide_b), (DIFFERENCE, wide_a - wide_b)] {
            let wrapped = i128::from(integer_of(&result(byte)));
            assert_eq!((exact - wrapped) % WRAP, 0, "{a} and {b}");
            past[0] += u32::from(exact > wrapped);
            past[1] += u32::from(exact < wrapped);
        }
        let less = wide_a - wide_b < 0;
        assert_eq!(result(LESS_THAN), truth(less), "{a} and {b}");
        if (a < 0) != (b < 0) {
            across_the_sign[usize::from(less)] += 1;
        }
    }
    let counts = [past, across_the_sign].concat();
    assert!(counts.iter().all(|count| *count > 1_000), "{counts:?}");
}

/// A value of any kind in a store of three slots.
fn any_value(random: &mut Random) -> Bytes {
    match random.below(4) {
        0 => integer(random.below(4) as i64),
        1 => integer(random.integer()),
        2 => truth(random.one_in(2)),
        _ => value(2 + random.below(2) as u8, random.below(3) as i64),
    }
}

/// "15 equal, true when kind and payload agree, for values of any kinds"
#[test]
fn values_are_equal_when_all_their_bytes_are() {
    let mut random = Random::stream(VALUES);
    let mut counts = [[0; 2]; 2];
    for case in 0..20_000 {
        let one = any_value(&mut random);
        let other = match random.below(3) {
            0 => one.clone(),
            1 if one[0] == 0 => integer(integer_of(&one) ^ 1 << random.below(64)),
            _ => any_value(&mut random),
        };
        let held = [one, other];
        let (left, right) = operands(&held[0], &held[1])[case % 4].clone();
        let same = held[0] == held[1];
        assert_eq!(given(&held, equal(left, right)), truth(same));
        counts[usize::from(held[0][0] == held[1][0])][usize::from(same)] += 1;
    }
    let [[unlike, never], [differ, agree]] = counts;
    assert_eq!(never, 0);
    assert!(
        unlike > 1_000 && differ > 1_000 && agree > 1_000,
        "{counts:?}"
    );
}

/// "The label is the meet of both labels": what stands at or below both owners
/// may be written, and nothing else. The guard's label is the branch's.
#[test]
fn the_label_is_the_meet_of_both() {
    for masks in TABLES {
        let all = || principals(masks);
        let top = top(masks);
        for (one, other) in all().flat_map(|one| all().map(move |other| (one, other))) {
            for to in all() {
                let slots = [(one, integer(3)), (other, integer(4)), (to, integer(0))];
                let sheet = store(masks, &slots);
                let passes = [one, other]
                    .iter()
                    .all(|owner| stands_below(masks, to, *owner));
                for byte in OPERATIONS {
                    let value = set(2, operation(byte, slot(0), slot(1)));
                    for rule in [2, 3] {
                        let answer = call_block(&sheet, top, value.clone(), rule).play().answer;
                        assert_eq!(answer.number == 0, passes, "{one} {other} {to}");
                        assert!(passes || answer.number == 16);
                    }
                }
                let write = || set_integer(2, 9);
                let guarded = if_else(less_than(slot(0), slot(1)), write(), write());
                let answer = call_block(&sheet, top, guarded.clone(), 3).play().answer;
                assert_eq!(answer.number == 0, passes, "{one} {other} {to}");
                let explicit = call_block(&sheet, top, guarded, 2).play().answer;
                assert_eq!(explicit.number, 0);
            }
        }
    }
}

/// An expression in the making, with what is judged of it in the order of
/// judging: of a leaf where it stands, of an operation after both operands.
struct Judged {
    random: Random,
    /// At each place the refusal, if it has one.
    places: Vec<Option<u32>>,
}

/// What kind of value an expression gives, if it gives one.
#[derive(Clone, Copy, PartialEq)]
enum Gives {
    Integer,
    Other,
}

impl Judged {
    fn leaf(&mut self) -> (Bytes, Gives) {
        let (expression, gives, refusal) = match self.random.below(16) {
            0 => (literal(truth(true)), Gives::Other, None),
            1 => (literal(write_view(0)), Gives::Other, None),
            // A write view that region 0 may not hold, read or not.
            2 => (literal(write_view(1)), Gives::Other, Some(15)),
            3 => (read(literal(write_view(1))), Gives::Other, Some(15)),
            4 => (slot(2), Gives::Other, Some(15)),
            5 => (read(slot(0)), Gives::Other, Some(13)),
            6..=9 => (slot(0), Gives::Integer, None),
            _ => (literal(integer(7)), Gives::Integer, None),
        };
        self.places.push(refusal);
        (expression, gives)
    }

    fn expression(&mut self, depth: usize) -> (Bytes, Gives) {
        if depth == 0 || self.random.one_in(3) {
            return self.leaf();
        }
        let byte = self.random.operation();
        let (left, left_gives) = self.expression(depth - 1);
        let (right, right_gives) = self.expression(depth - 1);
        let suits = [left_gives, right_gives] == [Gives::Integer; 2];
        let fault = (byte != EQUAL && !suits).then_some(13);
        self.places.push(fault);
        let gives = match byte {
            SUM | DIFFERENCE => Gives::Integer,
            _ => Gives::Other,
        };
        let expression = operation(byte, left, right);
        if self.random.one_in(12) {
            // "a read needs a read view", which no operation gives.
            self.places.push(Some(13));
            return (read(expression), Gives::Other);
        }
        (expression, gives)
    }
}

/// "The left one is evaluated first, then the right; then kinds are judged, by
/// 13": the first fault in that order is told.
#[test]
fn the_first_fault_is_told() {
    let slots = [(0, integer(5)), (1, integer(6)), (0, write_view(1))];
    let sheet = store(&PAIR, &slots);
    let mut counts = [0; 3];
    for case in 0..20_000 {
        let mut judged = Judged {
            random: Random::stream(FAULTS + case),
            places: vec![],
        };
        // Three operations, each read, around a leaf of two reads: 8 deep.
        let (expression, _) = judged.expression(3);
        let first = judged.places.into_iter().flatten().next();
        let answer = call_block(&sheet, 0, set(0, expression), 1).play().answer;
        assert_eq!(answer.number, first.unwrap_or(0));
        counts[match first {
            Some(13) => 0,
            Some(_) => 1,
            None => 2,
        }] += 1;
    }
    assert!(counts.iter().all(|count| *count > 2_000), "{counts:?}");
}

/// An expression as it is written, with each of its bytes 11 to 15: where it
/// stands, and how many stand around it and with it.
struct Nested {
    random: Random,
    bytes: Bytes,
    depths: Vec<(usize, usize)>,
}

impl Nested {
    /// Goes on to this depth on one side, where there are two, and less far on
    /// the other.
    fn expression(&mut self, depth: usize, goes_to: usize) {
        if depth > goes_to {
            self.bytes.extend(literal(integer(1)));
            return;
        }
        self.depths.push((self.bytes.len(), depth));
        if self.random.one_in(3) {
            self.bytes.push(0x11);
            return self.expression(depth + 1, goes_to);
        }
        let byte = self.random.operation();
        self.bytes.push(byte);
        let other = depth + self.random.below(3);
        let sides = match self.random.one_in(2) {
            true => [goes_to, other.min(goes_to)],
            false => [other.min(goes_to), goes_to],
        };
        for side in sides {
            self.expression(depth + 1, side);
        }
    }
}

/// "Expressions may now nest 8 deep, reads and operations together; the ninth is
/// refused by 10 as before."
#[test]
fn the_ninth_is_refused_where_it_stands() {
    let mut counts = [0; 12];
    for case in 0..20_000 {
        let mut nested = Nested {
            random: Random::stream(DEPTHS + case),
            bytes: vec![0x24],
            depths: vec![],
        };
        let goes_to = nested.random.below(12);
        nested.expression(1, goes_to);
        let code = join(&[&nested.bytes, &skip()]);
        let ninth = nested.depths.iter().find(|(_, depth)| *depth == 9);
        let call = call_block(&example_store(), 0, code, 0).budget(0);
        match ninth {
            Some((offset, _)) => call.refused(10, 0, *offset, 0),
            None => call.refused(17, 0, 0, 0),
        }
        let deepest = nested.depths.iter().map(|(_, depth)| *depth).max();
        counts[deepest.unwrap_or(0)] += 1;
    }
    assert!(counts.iter().all(|count| *count > 500), "{counts:?}");
}
