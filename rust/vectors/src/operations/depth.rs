//! How deep expressions nest: "reads and operations together". A path goes from
//! an expression's first byte into one operand after another; literals are of no
//! depth.

use super::{name_of, number};
use crate::case::{case, Case};
use sheets::*;

pub fn cases() -> Vec<Case> {
    let mut cases = of_one_step();
    cases.extend(one_odd_step());
    cases.extend(operations_around_reads());
    cases.extend(neighbours());
    cases.extend(everywhere());
    cases.extend(faults_beside());
    cases.extend(faults_for_a_ninth());
    cases
}

pub(super) const DEEP: &str = "Expressions may now nest 8 deep, reads and operations together; \
    the ninth is refused by 10 as before.";
/// How deep, at most.
pub(super) const MOST: usize = 8;

/// A byte of a path, and the operand in which the path goes on.
#[derive(Clone, Copy)]
enum Step {
    Read,
    Left(u8),
    Right(u8),
}

impl Step {
    fn name(self) -> String {
        match self {
            Step::Read => "read".into(),
            Step::Left(byte) => format!("{}'s left", name_of(byte)),
            Step::Right(byte) => format!("{}'s right", name_of(byte)),
        }
    }

    fn around(self, inner: Bytes) -> Bytes {
        match self {
            Step::Read => read(inner),
            Step::Left(byte) => operation(byte, inner, number(1)),
            Step::Right(byte) => operation(byte, number(1), inner),
        }
    }

    /// The bytes from this one to what is inside.
    fn width(self) -> usize {
        match self {
            Step::Read | Step::Left(_) => 1,
            Step::Right(_) => 1 + LITERAL,
        }
    }
}

/// The expression along a path, around a literal.
fn along(path: &[Step]) -> Bytes {
    path.iter()
        .rev()
        .fold(number(1), |inner, step| step.around(inner))
}

/// Where the ninth byte of a path stands in its expression.
fn ninth_of(path: &[Step]) -> usize {
    path[..MOST].iter().map(|step| step.width()).sum()
}

/// A while of which no round runs, and in it an assignment's value: nothing is
/// judged of it but how it reads.
fn unrun(expression: Bytes) -> Bytes {
    while_do(literal(truth(false)), set(0, expression))
}

/// Where the value stands there: after 24, a guard, 21 and a target.
const VALUE: usize = 1 + LITERAL + 1 + LITERAL;

pub(super) fn passes(name: String, expression: Bytes) -> Case {
    case(name, DEEP)
        .block(0, unrun(expression))
        .finishes(1, &[integer(5), integer(7)].map(kept))
}

/// The expression is too deep at this place in it.
pub(super) fn past(name: String, expression: Bytes, place: usize) -> Case {
    case(name, DEEP)
        .block(0, unrun(expression))
        .refused(10, 0, VALUE + place, 0)
}

/// Eight pass, and the ninth is refused.
fn eight_and_nine(name: impl Fn(usize) -> String, path: impl Fn(usize) -> Vec<Step>) -> [Case; 2] {
    let (eight, nine) = (path(MOST), path(MOST + 1));
    [
        passes(name(MOST), along(&eight)),
        past(name(MOST + 1), along(&nine), ninth_of(&nine)),
    ]
}

/// The same step again and again, and left and right in turns.
fn of_one_step() -> Vec<Case> {
    let sides = |byte| [Step::Left(byte), Step::Right(byte)];
    let steps = OPERATIONS.into_iter().flat_map(sides).chain([Step::Read]);
    let alike = steps.flat_map(|step| {
        let name = |count| format!("{count} deep by {}", step.name());
        eight_and_nine(name, |count| vec![step; count])
    });
    let turning = OPERATIONS.into_iter().flat_map(|byte| {
        let name = |count| format!("{count} deep by {}, side by side", name_of(byte));
        let path = |count| (0..count).map(|at| sides(byte)[at % 2]).collect();
        eight_and_nine(name, path)
    });
    alike.chain(turning).collect()
}

/// One step of a path is not like the others, at each place.
fn one_odd_step() -> Vec<Case> {
    let pairs = [
        (Step::Read, Step::Left(SUM)),
        (Step::Read, Step::Right(EQUAL)),
        (Step::Left(SUM), Step::Read),
        (Step::Right(LESS_THAN), Step::Read),
        (Step::Left(DIFFERENCE), Step::Left(EQUAL)),
        (Step::Left(EQUAL), Step::Right(SUM)),
        (Step::Right(SUM), Step::Left(LESS_THAN)),
        (Step::Right(EQUAL), Step::Right(DIFFERENCE)),
    ];
    let mut cases = Vec::new();
    for (step, odd) in pairs {
        let path = |count, place: usize| {
            let mut path = vec![step; count];
            path[place] = odd;
            path
        };
        let name = |count, place| {
            let (step, odd) = (step.name(), odd.name());
            format!("{count} deep by {step}, at {place} {odd}")
        };
        cases.extend((0..MOST).map(|place| {
            let path = path(MOST, place);
            passes(name(MOST, place), along(&path))
        }));
        cases.extend((0..=MOST).map(|place| {
            let path = path(MOST + 1, place);
            past(name(MOST + 1, place), along(&path), ninth_of(&path))
        }));
    }
    cases
}

/// Slot 0 holds 5; each further slot shows the one before.
fn ladder() -> Vec<Bytes> {
    let views = (0..MOST as i64).map(read_view);
    [integer(5)].into_iter().chain(views).collect()
}

/// So many reads, of which the last gives slot 0's 5; or 5 itself.
fn reads_to_five(count: usize) -> Bytes {
    match count {
        0 => number(5),
        _ => reads(count, count as i64 - 1),
    }
}

/// Sums of 1 and what is inside, around reads: they run.
fn operations_around_reads() -> Vec<Case> {
    let slots: Vec<(u8, Bytes)> = ladder().into_iter().map(|value| (0, value)).collect();
    let block = |sums: usize, deep: usize| {
        let wrap = |inner, at: usize| match at % 2 {
            0 => sum(inner, number(1)),
            _ => sum(number(1), inner),
        };
        let inner = reads_to_five(deep - sums);
        let expression = (0..sums).fold(inner, wrap);
        case(format!("{sums} sums around {} reads", deep - sums), DEEP)
            .store(store(&[1], &slots))
            .block(0, set(0, expression))
            .rule(3)
    };
    let finished = (0..=MOST).map(|sums| {
        let mut end: Vec<EndSlot> = ladder().into_iter().map(kept).collect();
        end[0] = once(integer(5 + sums as i64));
        block(sums, MOST).finishes(1, &end)
    });
    // From outside in, the last sum wrapped comes first: an odd one has a
    // literal before what is inside.
    let refused = (0..=MOST + 1).map(|sums| {
        let before = (0..sums).rev().take(MOST);
        let literals = before.filter(|at| at % 2 == 1).count();
        let place = 1 + LITERAL + MOST + LITERAL * literals;
        block(sums, MOST + 1).refused(10, 0, place, 0)
    });
    finished.chain(refused).collect()
}

/// Depth is not summed over operands, target and value, or commands.
fn neighbours() -> Vec<Case> {
    let deep = |count| along(&vec![Step::Left(SUM); count]);
    let twice = sequence(&[set(0, deep(8)), set(0, deep(8))]);
    let views = store(&[1], &[(0, write_view(0)), (0, read_view(0))]);
    let target = assign(reads(2, 1), deep(8));
    vec![
        case("sum of two 7 deep", DEEP)
            .block(0, set(0, sum(deep(7), deep(7))))
            .finishes(1, &[once(integer(16)), kept(integer(7))]),
        // One sum, then all of its left operand, then 7 more.
        past(
            "sum of 7 and 8 deep".into(),
            sum(deep(7), deep(8)),
            1 + deep(7).len() + 7,
        ),
        case("8 deep in each of two commands", DEEP)
            .block(0, twice)
            .finishes(2, &[written(2, integer(9)), kept(integer(7))]),
        case("8 deep behind a target of 2 reads", DEEP)
            .store(views)
            .block(0, target)
            .finishes(1, &[once(integer(9)), kept(read_view(0))]),
    ]
}

/// As a target, a value, each guard, and in the second block.
fn everywhere() -> Vec<Case> {
    let nine = || along(&[Step::Left(EQUAL); MOST + 1]);
    let refused = |name: &str, code, offset| {
        case(format!("9 deep in {name}"), DEEP)
            .block(0, code)
            .refused(10, 0, offset, 0)
    };
    vec![
        refused("a target", assign(nine(), number(1)), 1 + MOST),
        refused("a value", set(0, nine()), 1 + LITERAL + MOST),
        refused("an if's guard", if_else(nine(), skip(), skip()), 1 + MOST),
        refused("a while's guard", while_do(nine(), skip()), 1 + MOST),
        case("9 deep in the second block", DEEP)
            .blocks(&[(0, skip()), (0, while_do(nine(), skip()))])
            .refused(10, 1, 1 + MOST, 0),
    ]
}

/// A while whose guard is this expression, refused at a place in it.
fn guarded(name: &str, expression: &[u8], number: u32, place: usize) -> Case {
    case(name, "9 or 10 in byte order; 12; run")
        .block(0, join(&[&[0x24], expression]))
        .refused(number, 0, 1 + place, 0)
}

/// Eight reads and operations, each the left operand of the one before.
const EIGHT: [u8; MOST] = [0x12, 0x13, 0x14, 0x15, 0x11, 0x12, 0x11, 0x15];

/// "9 or 10 in byte order": the ninth before what is wrong after it, and after
/// what is wrong before it.
fn faults_beside() -> Vec<Case> {
    let nine = || along(&[Step::Left(SUM); MOST]);
    let bad = || literal(value(4, 0));
    let ninth_first = |name, right| guarded(name, &operation(EQUAL, nine(), right), 10, MOST);
    vec![
        ninth_first("a ninth before an unknown right operand", vec![0xFF]),
        ninth_first("a ninth before a bad right operand", bad()),
        guarded(
            "an unknown left operand before a ninth",
            &operation(SUM, vec![0xFF], nine()),
            9,
            1,
        ),
        guarded(
            "a bad left operand before a ninth",
            &operation(SUM, bad(), nine()),
            9,
            2,
        ),
    ]
}

/// "an unknown byte is 9 at any depth": what stands where a ninth would.
fn faults_for_a_ninth() -> Vec<Case> {
    let bad = literal(value(4, 0));
    let left = |name, more: &[u8], refusal, place| {
        guarded(name, &join(&[&EIGHT, more]), refusal, MOST + place)
    };
    let right = |name, more: &[u8], refusal, place| {
        let code = join(&[&EIGHT, &number(1), more]);
        guarded(name, &code, refusal, MOST + LITERAL + place)
    };
    vec![
        left("a ninth and no more", &[0x12], 10, 0),
        left("a ninth and an unknown byte", &[0x13, 0xFF], 10, 0),
        left("code 16 for a ninth", &[0x16], 9, 0),
        left("code 20 for a ninth", &[0x20], 9, 0),
        left("no byte for a ninth", &[], 9, 0),
        left("a bad literal in eight", &bad, 9, 1),
        right("a ninth on the right", &[0x14], 10, 0),
        right("a ninth 11 on the right", &[0x11], 10, 0),
        right("code 16 on the right in eight", &[0x16], 9, 0),
        right("no byte on the right in eight", &[], 9, 0),
        right("a bad literal on the right in eight", &bad, 9, 1),
    ]
}
