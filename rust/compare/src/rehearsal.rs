//! A rehearsal of a run, for the generators and the tallies.

use crate::code::{Block, Command};
use crate::expressions::Expression;
use crate::sheets::Table;
use crate::values::Value;

/// A guess at how a run goes on: kinds are minded, rules are not. Generators
/// use it to know what the slots hold. Tallies follow runs by it through the steps
/// that they did, to tell what was met there.
#[derive(Debug, Clone)]
pub struct Rehearsal<'a> {
    pub table: &'a Table,
    pub values: Vec<Value>,
}

impl Rehearsal<'_> {
    /// Longer runs are followed so far only.
    pub const MOST_STEPS: u32 = 200;

    /// The value of an expression and its label, unless a read or an operation
    /// meets a wrong kind.
    pub fn evaluate(&self, expression: &Expression) -> Option<(Value, u8)> {
        let lattice = &self.table.lattice;
        match expression {
            Expression::Literal(value) => Some((*value, lattice.top())),
            Expression::Read(view) => {
                let (Value::ReadView(slot), label) = self.evaluate(view)? else {
                    return None;
                };
                let label = lattice.meet(label, self.table.owner(slot));
                Some((self.values[usize::from(slot)], label))
            }
            Expression::Operation(operator, operands) => {
                let [left, right] = &**operands;
                let (left, left_label) = self.evaluate(left)?;
                let (right, right_label) = self.evaluate(right)?;
                let label = lattice.meet(left_label, right_label);
                Some((operator.apply(left, right)?, label))
            }
        }
    }

    /// What a command assigns under this branch label, if it is an assignment and
    /// no kind is wrong.
    pub fn assigning(&self, command: &Command, branch: u8) -> Option<Assigning> {
        let Command::Assign { target, value } = command else {
            return None;
        };
        let (Value::WriteView(slot), target) = self.evaluate(target)? else {
            return None;
        };
        let (new, value) = self.evaluate(value)?;
        Some(Assigning {
            slot,
            new,
            labels: [target, value, branch],
        })
    }

    /// Plays a command as far as it goes.
    pub fn play(&mut self, command: &Command) {
        let mut steps_left = Self::MOST_STEPS;
        let _ = self.go(command, &mut steps_left, &mut ());
    }

    /// Plays blocks through so many steps, or as many as are followed.
    pub fn follow(&mut self, blocks: &[Block], steps: u32, watch: &mut dyn Watch) {
        let mut steps_left = steps.min(Self::MOST_STEPS);
        for block in blocks {
            watch.enters(self, block);
            if self.go(&block.command, &mut steps_left, watch).is_none() {
                break;
            }
        }
    }

    /// Plays a block's command if it takes no more steps than are left.
    fn go(&mut self, command: &Command, steps_left: &mut u32, watch: &mut dyn Watch) -> Option<()> {
        let top = self.table.lattice.top();
        self.go_under(top, command, steps_left, watch)
    }

    /// The same under a branch label.
    fn go_under(
        &mut self,
        branch: u8,
        command: &Command,
        steps_left: &mut u32,
        watch: &mut dyn Watch,
    ) -> Option<()> {
        match command {
            Command::Skip => Some(()),
            Command::Assign { target, value } => {
                watch.comes_to(self, command, branch);
                *steps_left = steps_left.checked_sub(1)?;
                let (Value::WriteView(slot), _) = self.work(target, watch)? else {
                    return None;
                };
                let (value, _) = self.work(value, watch)?;
                self.values[usize::from(slot)] = value;
                Some(())
            }
            Command::Sequence(commands) => commands
                .iter()
                .try_for_each(|inner| self.go_under(branch, inner, steps_left, watch)),
            Command::If {
                guard,
                then_part,
                else_part,
            } => {
                watch.comes_to(self, command, branch);
                let (holds, label) = self.guard(guard, steps_left, watch)?;
                let part = if holds { then_part } else { else_part };
                let inside = self.table.lattice.meet(branch, label);
                self.go_under(inside, part, steps_left, watch)
            }
            Command::While { guard, body } => loop {
                watch.comes_to(self, command, branch);
                let (holds, label) = self.guard(guard, steps_left, watch)?;
                if !holds {
                    return Some(());
                }
                let inside = self.table.lattice.meet(branch, label);
                self.go_under(inside, body, steps_left, watch)?;
            },
        }
    }

    fn guard(
        &self,
        guard: &Expression,
        steps_left: &mut u32,
        watch: &mut dyn Watch,
    ) -> Option<(bool, u8)> {
        *steps_left = steps_left.checked_sub(1)?;
        match self.work(guard, watch)? {
            (Value::Truth(holds), label) => Some((holds, label)),
            _ => None,
        }
    }

    fn work(&self, expression: &Expression, watch: &mut dyn Watch) -> Option<(Value, u8)> {
        watch.sees(self, expression);
        self.evaluate(expression)
    }
}

/// An assignment worked out: its slot, what the slot will hold, and the labels of
/// target, value and branch.
#[derive(Debug, Clone, Copy, PartialEq, Eq)]
pub struct Assigning {
    pub slot: u8,
    pub new: Value,
    pub labels: [u8; 3],
}

/// Looks on while blocks are played.
pub trait Watch {
    /// This block is next.
    fn enters(&mut self, _: &Rehearsal, _: &Block) {}

    /// This command's step is next, under this branch label, if it is allowed.
    fn comes_to(&mut self, _: &Rehearsal, _: &Command, _: u8) {}

    /// This expression is worked out next, whole.
    fn sees(&mut self, _: &Rehearsal, _: &Expression) {}
}

/// Nobody looks on.
impl Watch for () {}

/// Two look on.
impl<A: Watch, B: Watch> Watch for (&mut A, &mut B) {
    fn enters(&mut self, stage: &Rehearsal, block: &Block) {
        self.0.enters(stage, block);
        self.1.enters(stage, block);
    }

    fn comes_to(&mut self, stage: &Rehearsal, command: &Command, branch: u8) {
        self.0.comes_to(stage, command, branch);
        self.1.comes_to(stage, command, branch);
    }

    fn sees(&mut self, stage: &Rehearsal, expression: &Expression) {
        self.0.sees(stage, expression);
        self.1.sees(stage, expression);
    }
}

#[cfg(test)]
mod tests {
    use super::*;
    use crate::sheets::{plain_store, Store};

    /// Slots of principals 0, 1 and 2, a chain; the first two hold truth values.
    fn store() -> Store {
        let mut store = plain_store(3, 3);
        store.table.owners = vec![0, 1, 2];
        store.values[0] = Value::Truth(true);
        store.values[1] = Value::Truth(true);
        store
    }

    fn set(slot: u8) -> Command {
        Command::set(slot, Expression::literal(Value::Truth(false)))
    }

    #[derive(Default)]
    struct Seen(Vec<(u8, u8)>);

    impl Watch for Seen {
        fn comes_to(&mut self, stage: &Rehearsal, command: &Command, branch: u8) {
            let assigning = stage.assigning(command, branch);
            self.0
                .extend(assigning.map(|own| (own.slot, own.labels[2])));
        }
    }

    /// The assignments that come up in so many steps, each with its branch label.
    fn seen(command: Command, steps: u32) -> Vec<(u8, u8)> {
        let mut seen = Seen::default();
        let block = Block::plain(2, command);
        store().stage().follow(&[block], steps, &mut seen);
        seen.0
    }

    /// "after the part, or after each round before judging again, the outer one is
    /// back"
    #[test]
    fn branch_labels_fall_inside_parts_and_are_back_after_them() {
        let (low, high) = (Expression::read_of(0), Expression::read_of(1));
        let inner = Command::if_else(low, set(2), Command::Skip);
        let body = Command::Sequence(vec![set(2), inner, set(1)]);
        let whole = Command::Sequence(vec![Command::while_do(high, body), set(2)]);
        assert_eq!(seen(whole, 9), [(2, 1), (2, 0), (1, 1), (2, 2)]);
    }

    #[test]
    fn the_step_after_the_last_one_is_seen() {
        let three = || Command::Sequence(vec![set(0), set(1), set(2)]);
        assert_eq!(seen(three(), 0), [(0, 2)]);
        assert_eq!(seen(three(), 1), [(0, 2), (1, 2)]);
        assert_eq!(seen(three(), 3), [(0, 2), (1, 2), (2, 2)]);
    }
}
