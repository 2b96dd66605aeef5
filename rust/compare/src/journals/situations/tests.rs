//! Runs in every situation.

use super::*;
use crate::ample::plain_run;
use crate::code::{programme_sheet, Block};
use crate::expressions::Expression;
use crate::sheets::{plain_store, Store};

/// Slots 0 and 1 of principal 0, slot 2 of principal 1, all with integer 0.
fn store() -> Store {
    let mut store = plain_store(2, 3);
    store.table.owners[2] = 1;
    store
}

/// A run of one block for each command, all of region 0, with this budget and so
/// many entries.
fn run(commands: &[Command], rule: u32, budget: u32, journal_length: usize) -> Run {
    let blocks: Vec<Block> = commands
        .iter()
        .map(|command| Block::plain(0, command.clone()))
        .collect();
    Run {
        budget,
        journal_length,
        ..plain_run(&store().bytes(), &programme_sheet(&blocks).bytes, rule)
    }
}

/// What comes up where a run is seen so, by the names of the lists and places, and
/// whether it is wrong.
fn came_up(run: &Run, seen: &Seen) -> (Vec<String>, bool) {
    let mut situations = Situations::default();
    let before = situations.complaints();
    let followed = Followed::of(run, seen.answer).expect("it takes place");
    situations.count(&followed, seen);
    let wrong = situations.wrong > 0;
    situations.wrong = 0;
    let after = situations.complaints();
    let came = before.into_iter().filter(|words| !after.contains(words));
    let came = came.map(|words| words.replace(" came up 0 times", ""));
    (came.collect(), wrong)
}

/// The same of what both runners do, which is not wrong.
fn situation(run: &Run) -> Vec<String> {
    let (came, wrong) = came_up(run, &run.second());
    assert!(!wrong, "{run:?}");
    came
}

fn set(slot: u8, integer: i64) -> Command {
    Command::set(slot, Expression::literal(Value::Integer(integer)))
}

fn truth(holds: bool) -> Expression {
    Expression::literal(Value::Truth(holds))
}

fn judge() -> Command {
    Command::if_else(truth(true), Command::Skip, Command::Skip)
}

#[test]
fn ends_are_told_apart() {
    let both = [set(0, 1), set(1, 1)];
    let again = [Command::Sequence(vec![set(0, 1), set(0, 2), judge()])];
    let same = [set(0, 0)];
    let known: [(&[Command], usize, &[usize]); 8] = [
        (&[], 0, &[0]),
        (&[judge()], 0, &[0, 4]),
        (&[judge()], 1, &[1]),
        (&both, 2, &[2, 7]),
        (&both, 3, &[3, 7]),
        (&again, 2, &[2, 4, 5]),
        (&again, 3, &[3, 5]),
        (&same, 9, &[3, 6]),
    ];
    for (commands, entries, ends) in known {
        let run = run(commands, 3, 10, entries);
        let expected: Vec<String> = ends
            .iter()
            .map(|end| format!("finished: {}", ENDS[*end]))
            .collect();
        assert_eq!(situation(&run), expected, "{commands:?}");
    }
}

/// The places of 18, as their lists have them.
fn full(places: &[usize], ahead: usize, after_writes: bool) -> Vec<String> {
    let after = after_writes.then(|| "refused after writes: 18".to_string());
    let places = places.iter().map(|place| format!("18: {}", PLACES[*place]));
    let ahead = format!("18 ahead of: {}", AHEAD[ahead]);
    after.into_iter().chain(places).chain([ahead]).collect()
}

#[test]
fn places_of_18_are_told_apart() {
    let write = || set(0, 1);
    let sequence = Command::Sequence(vec![judge(), write()]);
    let then_part = Command::if_else(truth(true), write(), Command::Skip);
    let else_part = Command::if_else(truth(false), Command::Skip, write());
    let body = Command::while_do(truth(true), write());
    let known: [(&[Command], usize, &[usize], bool); 6] = [
        (&[write()], 0, &[0, 5, 7], false),
        (&[write(), write()], 1, &[0, 6], true),
        (&[sequence], 0, &[1, 5, 7, 8], false),
        (&[write(), then_part], 1, &[2, 6, 8], true),
        (&[write(), else_part], 1, &[3, 6, 8], true),
        (&[body], 3, &[4, 5, 8], true),
    ];
    for (commands, entries, places, after_writes) in known {
        let run = run(commands, 3, 20, entries);
        assert_eq!(situation(&run), full(places, 0, after_writes));
    }
}

#[test]
fn what_18_is_ahead_of_is_told() {
    let misread = || Expression::read(Expression::literal(Value::Integer(0)));
    let no_target = Command::Assign {
        target: misread(),
        value: misread(),
    };
    let no_view = Command::Assign {
        target: truth(true),
        value: misread(),
    };
    let known = [
        (no_target, 3, 1),
        (no_view, 3, 1),
        (Command::set(0, misread()), 3, 2),
        (set(2, 1), 3, 3),
        (set(2, 1), 1, 4),
    ];
    for (command, rule, ahead) in known {
        let run = run(&[command], rule, 5, 0);
        assert_eq!(situation(&run), full(&[0, 5, 7], ahead, false));
    }
    let mut store = store();
    store.table.owners[1] = 1;
    let block = Block::plain(1, Command::set(1, Expression::read_of(0)));
    let low = Run {
        journal_length: 0,
        ..plain_run(&store.bytes(), &programme_sheet(&[block]).bytes, 3)
    };
    assert_eq!(situation(&low), full(&[0, 5, 7], 5, false));
}

#[test]
fn what_17_is_ahead_of_is_told() {
    let known: [(&[Command], u32, usize, usize); 4] = [
        (&[judge(), set(0, 1)], 1, 1, 0),
        (&[judge(), set(0, 1)], 1, 0, 1),
        (&[judge(), judge()], 1, 1, 2),
        (&[judge(), judge()], 1, 0, 3),
    ];
    for (commands, budget, entries, next) in known {
        let run = run(commands, 3, budget, entries);
        let expected = [format!("17 ahead of: {}", NEXT[next])];
        assert_eq!(situation(&run), expected);
    }
    let spent = run(&[set(0, 1), judge()], 3, 1, 4);
    let expected = [
        "refused after writes: 17".to_string(),
        format!("17 ahead of: {}", NEXT[2]),
    ];
    assert_eq!(situation(&spent), expected);
}

/// Another answer to the same run, though both runners may give it.
fn wrong(run: &Run, number: u32) -> bool {
    let mut seen = run.second();
    seen.answer.number = number;
    came_up(run, &seen).1
}

#[test]
fn answers_against_document_02_are_told() {
    let view = || Expression::literal(Value::Integer(0));
    let no_view = Command::Assign {
        target: view(),
        value: view(),
    };
    // 18 before 17, and 17 before the budget is spent.
    assert!(wrong(&run(&[set(0, 1)], 3, 0, 0), 18));
    assert!(wrong(&run(&[set(0, 1)], 3, 1, 0), 17));
    // 18 after the target, and 18 with an entry free.
    let no_view = [no_view];
    assert!(wrong(&run(&no_view, 3, 1, 0), 13));
    assert!(wrong(&run(&no_view, 3, 1, 1), 18));
    // 18 at a guard.
    let guard = Command::if_else(view(), Command::Skip, Command::Skip);
    assert!(wrong(&run(&[guard], 3, 1, 0), 18));
    // An entry is missing.
    let finished = run(&[set(0, 1)], 3, 1, 1);
    let mut seen = finished.second();
    assert!(!came_up(&finished, &seen).1);
    seen.journal.filled.clear();
    assert!(came_up(&finished, &seen).1);
}
