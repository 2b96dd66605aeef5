//! Assignments whose labels stand in every way to an owner and a floor.

use super::*;
use crate::ample::plain_run;
use crate::calls::Run;
use crate::code::programme_sheet;
use crate::expressions::Expression;
use crate::lattices::Lattice;
use crate::sheets::{Store, Table};
use crate::steps::Followed;
use crate::values::Value;

/// A bottom, 1 and 2 beside each other, and a top, each with a slot of its
/// number. Then slots by which low labels come in: a truth value, a write view of
/// slot 2 at the bottom and one at principal 1.
fn store() -> Store {
    let integers = (0..4).map(Value::Integer);
    let others = [Value::Truth(true), Value::WriteView(2), Value::WriteView(2)];
    Store {
        table: Table {
            lattice: Lattice::of_good_table(vec![0b0001, 0b0011, 0b0101, 0b1111]),
            owners: vec![0, 1, 2, 3, 0, 0, 1],
        },
        values: integers.chain(others).collect(),
    }
}

fn run(rule: u32, region: u8, endorsement: Endorsement, command: &Command) -> Run {
    let block = Block {
        region,
        endorsement,
        command: command.clone(),
    };
    plain_run(&store().bytes(), &programme_sheet(&[block]).bytes, rule)
}

/// What comes up where a run comes to this answer, but for sorts of floors.
fn came_up(run: &Run, answer: Answer) -> (Vec<String>, u64) {
    let mut judged = Judged::default();
    let before = judged.complaints();
    let followed = Followed::of(run, answer).expect("it takes place");
    followed.play(&mut judged.watcher(run.rule, answer));
    let after = judged.complaints();
    let came = before.into_iter().filter(|words| !after.contains(words));
    let came = came.filter(|words| !words.starts_with("floors where"));
    let short = |words: String| {
        let (_, thing) = words.split_once(": ").expect("a list and a thing");
        thing.replace(" never came up", "")
    };
    (came.map(short).collect(), judged.wrong)
}

/// Of a block of the top region with this floor.
fn endorsed(rule: u32, floor: u8, command: &Command) -> (u32, Vec<String>) {
    let run = run(rule, 3, Endorsement::DownTo(floor), command);
    let answer = run.second().answer;
    let (came, wrong) = came_up(&run, answer);
    assert_eq!(wrong, 0, "{command:?}");
    (answer.number, came)
}

fn copy(to: u8, from: u8) -> Command {
    Command::set(to, Expression::read_of(from))
}

fn literal(integer: i64) -> Expression {
    Expression::literal(Value::Integer(integer))
}

/// Through the write view in this slot.
fn through(slot: u8, value: Expression) -> Command {
    let target = Expression::read_of(slot);
    Command::Assign { target, value }
}

#[test]
fn labels_are_judged_together() {
    let known: [(u8, Command, u32, &[usize]); 4] = [
        (1, through(5, literal(7)), 16, &[0, MEET]),
        (2, copy(1, 0), 16, &[1, MEET]),
        (1, copy(2, 0), 16, &[1, MEET]),
        (1, through(6, Expression::read_of(2)), 16, &[EACH, MEET]),
    ];
    for (floor, command, number, sorts) in known {
        for (rule, _) in JUDGING {
            let expected: Vec<&str> = sorts.iter().map(|sort| REFUSALS[*sort]).collect();
            let (answer, came) = endorsed(rule, floor, &command);
            assert_eq!(answer, number);
            assert_eq!(came, expected, "rule {rule}: {command:?}");
        }
    }
}

#[test]
fn owner_and_floor_let_pass() {
    let known = [
        (2, copy(1, 1), 0),
        (2, copy(1, 2), 1),
        (1, through(6, literal(7)), 1),
        (2, copy(1, 3), 2),
        (0, copy(1, 0), 1),
    ];
    for (floor, command, pass) in known {
        for (rule, _) in JUDGING {
            let came = endorsed(rule, floor, &command);
            assert_eq!(came, (0, vec![PASSES[pass].to_string()]), "{command:?}");
        }
    }
}

#[test]
fn the_branch_is_judged_under_full_provenance() {
    let guard = Expression::read_of(4);
    let branch = Command::if_else(guard, Command::set(1, literal(7)), Command::Skip);
    let passed = [PASSES[2], UNJUDGED_BRANCH].map(str::to_string);
    assert_eq!(endorsed(2, 2, &branch), (0, passed.to_vec()));
    let refused = [REFUSALS[MEET], REFUSALS[BY_BRANCH]].map(str::to_string);
    for rule in [3, 255] {
        assert_eq!(endorsed(rule, 2, &branch), (16, refused.to_vec()));
    }
}

#[test]
fn where_floors_have_no_say_is_counted() {
    for (rule, words) in UNMINDED {
        let endorsement = match rule {
            0 | 1 => Endorsement::DownTo(2),
            _ => Endorsement::Absent { ignored: 0 },
        };
        let run = run(rule, 3, endorsement, &copy(1, 0));
        let came = came_up(&run, run.second().answer);
        assert_eq!(came, (vec![words.to_string()], 0));
    }
    for (rule, _) in JUDGING {
        let command = Command::set(2, literal(7));
        let run = run(rule, 1, Endorsement::DownTo(0), &command);
        let came = came_up(&run, run.second().answer);
        assert_eq!(came, (vec![REFUSALS[AUTHORITY].to_string()], 0));
    }
}

/// Were it done, or refused by 16, both runners would go against document 02.
#[test]
fn wrong_answers_are_told() {
    let refused = run(3, 3, Endorsement::DownTo(2), &copy(1, 0));
    let done = Answer {
        steps: 1,
        ..Answer::only(DONE)
    };
    assert_eq!(came_up(&refused, done).1, 1);
    let passed = run(3, 3, Endorsement::DownTo(2), &copy(1, 2));
    assert_eq!(came_up(&passed, Answer::only(TOO_LOW)).1, 1);
    assert_eq!(came_up(&passed, done).1, 0);
}
