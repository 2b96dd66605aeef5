//! Operations outside the adversary's reach, by which of their operands are
//! tainted: labels that stand at or below the adversary. Where one alone is, the
//! label of the other would let what comes of both into a protected slot.

use std::fmt::{self, Display, Formatter};

use crate::code::Block;
use crate::expressions::Expression;
use crate::rehearsal::{Rehearsal, Watch};

/// Whether some operation has just these operands tainted.
#[derive(Debug, Clone, Copy, Default, PartialEq, Eq)]
pub struct Tainted {
    pub left: bool,
    pub right: bool,
    pub both: bool,
}

impl Tainted {
    pub fn any(self) -> bool {
        self.left || self.right || self.both
    }
}

/// Finished pairs in which an operation outside the adversary's reach has just
/// these operands tainted.
#[derive(Debug, Clone, Copy, Default)]
pub struct Operands {
    pub left: u64,
    pub right: u64,
    pub both: u64,
}

impl Operands {
    pub fn count(&mut self, tainted: Tainted) {
        self.left += u64::from(tainted.left);
        self.right += u64::from(tainted.right);
        self.both += u64::from(tainted.both);
    }

    pub fn all_came_up(&self) -> bool {
        ![self.left, self.right, self.both].contains(&0)
    }
}

impl Display for Operands {
    fn fmt(&self, out: &mut Formatter) -> fmt::Result {
        let Operands { left, right, both } = self;
        write!(out, "{left} left, {right} right, {both} both")
    }
}

/// Looks on for one adversary while runs are followed.
pub struct Watcher {
    adversary: u8,
    outside: bool,
    pub found: Tainted,
}

impl Watcher {
    pub fn new(adversary: u8) -> Watcher {
        Watcher {
            adversary,
            outside: false,
            found: Tainted::default(),
        }
    }

    fn is_tainted(&self, stage: &Rehearsal, operand: &Expression) -> bool {
        let lattice = &stage.table.lattice;
        let worked = stage.evaluate(operand);
        worked.is_some_and(|(_, label)| lattice.at_or_below(label, self.adversary))
    }
}

impl Watch for Watcher {
    fn enters(&mut self, stage: &Rehearsal, block: &Block) {
        let lattice = &stage.table.lattice;
        self.outside = !lattice.at_or_below(block.region, self.adversary);
    }

    fn sees(&mut self, stage: &Rehearsal, expression: &Expression) {
        match expression {
            _ if !self.outside => (),
            Expression::Literal(_) => (),
            Expression::Read(view) => self.sees(stage, view),
            Expression::Operation(_, operands) => {
                let [left, right] = [0, 1].map(|side| self.is_tainted(stage, &operands[side]));
                self.found.left |= left && !right;
                self.found.right |= right && !left;
                self.found.both |= left && right;
                operands.iter().for_each(|inner| self.sees(stage, inner));
            }
        }
    }
}

#[cfg(test)]
mod tests {
    use super::*;
    use crate::code::Command;
    use crate::expressions::Operator;
    use crate::sheets::plain_store;

    /// Slot 0 is the adversary's, slot 1 is above it.
    #[test]
    fn operands_are_told_apart() {
        let mut store = plain_store(2, 2);
        store.table.owners[1] = 1;
        let (low, high) = (Expression::read_of(0), Expression::read_of(1));
        let known = [
            ([&low, &high], [true, false, false]),
            ([&high, &low], [false, true, false]),
            ([&low, &low], [false, false, true]),
            ([&high, &high], [false, false, false]),
        ];
        for ([one, other], [left, right, both]) in known {
            let sum = Expression::operation(Operator::Sum, one.clone(), other.clone());
            for region in [0, 1] {
                let blocks = [Block::plain(region, Command::set(0, sum.clone()))];
                let found = |steps| {
                    let mut watcher = Watcher::new(0);
                    store.stage().follow(&blocks, steps, &mut watcher);
                    watcher.found
                };
                let expected = match region {
                    0 => Tainted::default(),
                    _ => Tainted { left, right, both },
                };
                assert_eq!(found(1), expected);
                assert_eq!(found(0), Tainted::default());
            }
        }
    }
}
