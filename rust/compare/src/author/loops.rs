//! Loops that end, and a few that don't.

use super::bounds::Bound;
use super::{slots_where, Author};
use crate::code::Command;
use crate::expressions::{Expression, Operator};
use crate::values::{random_integer, Integer, Value};

/// What a loop's slots hold while it goes on and at its end, and how many
/// reads its guard needs for a truth value.
struct Marks {
    reads: usize,
    going: Vec<Value>,
    ending: Value,
}

impl Author<'_> {
    pub(super) fn looping(&mut self, depth: usize, branch: u8) -> Command {
        match self.random.below(12) {
            0..=4 => self.row_loop(depth, branch),
            5..=7 => self.count_loop(depth, branch),
            8..=10 => self.idle_loop(depth, branch),
            _ => {
                let guard = self.guard();
                self.loop_over(guard, depth, branch)
            }
        }
    }

    /// Marks in a row: each round moves them up by one and lets one in that
    /// ends the loop, so there are as many rounds as marks.
    fn row_loop(&mut self, depth: usize, branch: u8) -> Command {
        let row = self.row(branch);
        let (Some(first), Some(last)) = (row.first(), row.last()) else {
            return self.idle_loop(depth, branch);
        };
        let marks = self.marks();
        let mut commands: Vec<Command> = row
            .iter()
            .map(|slot| Command::set(*slot, Expression::literal(self.random.pick(&marks.going))))
            .collect();
        commands.iter().for_each(|set| self.stage.play(set));
        let guard = Expression::reads(marks.reads, Value::ReadView(*first));
        let inner = self.inside(branch, &guard);
        let mut body = vec![self.tried(depth, inner)];
        for pair in row.windows(2) {
            body.push(Command::set(pair[0], Expression::read_of(pair[1])));
        }
        body.push(Command::set(*last, Expression::literal(marks.ending)));
        commands.push(self.played(Command::while_do(guard, Command::all(body))));
        Command::all(commands)
    }

    /// Slots for a row: a later one's owner stands at or above an earlier
    /// one's, so moving marks up keeps provenance.
    fn row(&mut self, branch: u8) -> Vec<u8> {
        let table = self.stage.table;
        let mut row: Vec<u8> = Vec::new();
        for _ in 0..self.random.between(1, 4) {
            let Some(next) = self.rewritable(branch) else {
                break;
            };
            let follows = row.last().is_none_or(|last| {
                table
                    .lattice
                    .at_or_below(table.owner(*last), table.owner(next))
            });
            if follows && !row.contains(&next) {
                row.push(next);
            }
        }
        row
    }

    /// Truth values, or views of slots that hold one; then the guard's label
    /// can change from round to round.
    fn marks(&mut self) -> Marks {
        let views_of = |wanted| -> Vec<Value> {
            let slots = slots_where(&self.stage.values, |_, value| value == Value::Truth(wanted));
            slots.into_iter().map(Value::ReadView).collect()
        };
        let (going, ending) = (views_of(true), views_of(false));
        match self.random.pick_any(&ending) {
            Some(ending) if !going.is_empty() && self.random.one_in(2) => Marks {
                reads: 2,
                going,
                ending,
            },
            _ => Marks {
                reads: 1,
                going: vec![Value::Truth(true)],
                ending: Value::Truth(false),
            },
        }
    }

    /// A slot counts up or down until a comparison fails: at a limit, or past an
    /// end of the integers, where it comes in at the other.
    fn count_loop(&mut self, depth: usize, branch: u8) -> Command {
        let Some(slot) = self.rewritable(branch) else {
            return self.idle_loop(depth, branch);
        };
        let by = self.random.pick(&[1, 1, 3, 1 << 32]);
        let way = by * self.random.between(1, 4) as Integer;
        let near = random_integer(self.random) / 2;
        let here = || Expression::read_of(slot);
        let below = |limit| Expression::operation(Operator::LessThan, here(), integer(limit));
        let above = |limit| Expression::operation(Operator::LessThan, integer(limit), here());
        let (start, guard, operator) = match self.random.below(4) {
            0 => (near, below(near + way), Operator::Sum),
            1 => (near, above(near - way), Operator::Difference),
            2 => (Integer::MAX - way, above(0), Operator::Sum),
            _ => (Integer::MIN + way, below(0), Operator::Difference),
        };
        let set = self.played(Command::set(slot, integer(start)));
        let inner = self.inside(branch, &guard);
        let step = Expression::operation(operator, here(), integer(by));
        let body = vec![self.tried(depth, inner), Command::set(slot, step)];
        let counting = Command::while_do(guard, Command::all(body));
        Command::all(vec![set, self.played(counting)])
    }

    /// A loop whose guard is false from the start.
    fn idle_loop(&mut self, depth: usize, branch: u8) -> Command {
        let low = Value::Truth(false);
        let guard = self.reading(|value| value == low, Bound::default(), self.most_depth);
        self.loop_over(guard.unwrap_or(Expression::literal(low)), depth, branch)
    }

    fn loop_over(&mut self, guard: Expression, depth: usize, branch: u8) -> Command {
        let inner = self.inside(branch, &guard);
        let body = self.tried(depth, inner);
        self.played(Command::while_do(guard, body))
    }
}

fn integer(integer: Integer) -> Expression {
    Expression::literal(Value::Integer(integer))
}
