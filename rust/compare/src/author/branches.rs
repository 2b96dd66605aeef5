//! Ifs, each part fitting into the branch that it opens.

use super::{slots_where, Author};
use crate::code::{Block, Command};
use crate::expressions::Expression;
use crate::values::{random_integer, Value};

impl Author<'_> {
    pub(super) fn branching(&mut self, depth: usize, branch: u8) -> Command {
        let guard = self.guard();
        let inner = self.inside(branch, &guard);
        let alike = match self.random.one_in(6) {
            true => self.parts_alike(inner),
            false => None,
        };
        let [then_part, else_part] =
            alike.unwrap_or_else(|| [(); 2].map(|()| self.tried(depth, inner)));
        self.played(Command::if_else(guard, then_part, else_part))
    }

    /// A command that fits here; what it did is forgotten.
    pub(super) fn tried(&mut self, depth: usize, branch: u8) -> Command {
        let before = self.stage.values.clone();
        let command = self.command(depth, branch);
        self.stage.values = before;
        command
    }

    /// A block that may write a slot of an owner that is not low, and branches on a
    /// slot of one that is. Whichever part it takes, it leaves its slot alike.
    pub fn block_of_parts_alike(&mut self, region: u8, low: impl Fn(u8) -> bool) -> Option<Block> {
        let table = self.stage.table;
        let may_write = |slot| table.lattice.at_or_below(table.owner(slot), region);
        let guards = slots_where(&self.stage.values, |slot, value| {
            matches!(value, Value::Truth(_)) && low(table.owner(slot))
        });
        let slots = slots_where(&self.stage.values, |slot, _| {
            may_write(slot) && !low(table.owner(slot))
        });
        let guard = Expression::read_of(self.random.pick_any(&guards)?);
        let slot = self.random.pick_any(&slots)?;
        let [one, other] = self.parts_leaving(slot);
        Some(Block {
            region,
            endorsement: self.no_endorsement(),
            command: self.played(Command::if_else(guard, one, other)),
        })
    }

    fn parts_alike(&mut self, branch: u8) -> Option<[Command; 2]> {
        let slot = self.writable(branch)?;
        Some(self.parts_leaving(slot))
    }

    /// Two parts that leave a slot alike, each in its own way: which of them was
    /// taken shows in its entries alone, or in its count too.
    fn parts_leaving(&mut self, slot: u8) -> [Command; 2] {
        let mut set = || {
            let integer = Value::Integer(random_integer(self.random));
            Command::set(slot, Expression::literal(integer))
        };
        let [one, other, last] = [(); 3].map(|()| set());
        let twice = |first| Command::Sequence(vec![first, last.clone()]);
        match self.random.one_in(2) {
            true => [twice(one), twice(other)],
            false => [twice(one), last],
        }
    }
}
