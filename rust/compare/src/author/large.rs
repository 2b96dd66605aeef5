//! Blocks that are deep, and blocks and programmes that are long: in bytes,
//! and in the steps that they take.

use super::{slots_where, Author};
use crate::code::{Block, Command};
use crate::expressions::{Expression, Operator};
use crate::values::{Integer, Value};

impl Author<'_> {
    /// Blocks with one that is deep, or one that takes many steps, or as much
    /// code with a meaning as there may be.
    pub fn large_programme(&mut self) -> Vec<Block> {
        match self.random.below(4) {
            0 | 1 => vec![self.any_block(), self.deep_block(), self.any_block()],
            2 => vec![self.any_block(), self.counting_block(), self.any_block()],
            _ => self.full_programme(),
        }
    }

    /// A block that nests up to the limit, each part being taken.
    fn deep_block(&mut self) -> Block {
        let top = self.start_block();
        let depth = match self.random.one_in(2) {
            true => Command::MOST_DEPTH,
            false => self.random.between(2, Command::MOST_DEPTH),
        };
        let command = self.nest(depth, top);
        self.block_around(command)
    }

    /// Begins a block of any region, and gives its branch label.
    fn start_block(&mut self) -> u8 {
        self.region = self.any_region();
        self.endorsement = self.any_endorsement(self.region, 4);
        self.stage.table.lattice.top()
    }

    fn block_around(&self, command: Command) -> Block {
        Block {
            region: self.region,
            endorsement: self.endorsement,
            command,
        }
    }

    /// A command of at most this depth. The rehearsal has played it.
    fn nest(&mut self, depth: usize, branch: u8) -> Command {
        if depth <= 1 {
            return self.assignment(branch);
        }
        match self.random.below(8) {
            0 => {
                let before = self.assignment(branch);
                Command::Sequence(vec![before, self.nest(depth - 1, branch)])
            }
            1 => {
                let inner = self.nest(depth - 1, branch);
                Command::Sequence(vec![inner, self.assignment(branch)])
            }
            2 if depth > 3 => self.nest_in_loop(depth, branch),
            _ => self.nest_in_if(depth, branch),
        }
    }

    fn nest_in_if(&mut self, depth: usize, branch: u8) -> Command {
        let guard = self.deep_guard(depth);
        let inside = self.inside(branch, &guard);
        let holds = matches!(self.stage.evaluate(&guard), Some((Value::Truth(true), _)));
        let other = self.tried(0, inside);
        let taken = self.nest(depth - 1, inside);
        if holds {
            Command::if_else(guard, taken, other)
        } else {
            Command::if_else(guard, other, taken)
        }
    }

    /// Mostly a literal while there is far to go, so that the branch label
    /// falls at any depth and often at the last ones.
    fn deep_guard(&mut self, depth: usize) -> Expression {
        let literals = if depth > 4 { 92 } else { 40 };
        if self.random.percent(literals) {
            Expression::literal(Value::Truth(self.random.one_in(2)))
        } else {
            self.guard()
        }
    }

    /// A loop of one round, with the slot that ends it.
    fn nest_in_loop(&mut self, depth: usize, branch: u8) -> Command {
        let Some(slot) = self.rewritable(branch) else {
            return self.nest_in_if(depth, branch);
        };
        let start = self.played(set_truth(slot, true));
        let guard = Expression::read_of(slot);
        let inside = self.inside(branch, &guard);
        let inner = self.nest(depth - 3, inside);
        let end = self.played(set_truth(slot, false));
        let body = Command::Sequence(vec![inner, end]);
        Command::Sequence(vec![start, Command::while_do(guard, body)])
    }

    /// A block that counts.
    fn counting_block(&mut self) -> Block {
        let top = self.start_block();
        let slots = self.alike(top);
        let command = match self.random.one_in(2) {
            true => adding_up(&slots, self.random.between(0, MOST_ROUNDS)),
            false => digits(slots),
        };
        let command = self.played(command);
        self.block_around(command)
    }

    /// Slots that the region may write and that have one owner, so that what
    /// depends on some may be written to the others.
    fn alike(&mut self, branch: u8) -> Vec<u8> {
        let Some(slot) = self.writable(branch) else {
            return Vec::new();
        };
        let table = self.stage.table;
        let mut slots = slots_where(&self.stage.values, |other, _| {
            table.owner(other) == table.owner(slot)
        });
        self.random.shuffle(&mut slots);
        slots
    }

    /// As many blocks and as much code as there may be, or nearly.
    fn full_programme(&mut self) -> Vec<Block> {
        let mut code_left = Block::MOST_CODE;
        let mut blocks = Vec::new();
        while blocks.len() < Block::MOST {
            let block = self.long_block();
            let Some(left) = code_left.checked_sub(block.command.length()) else {
                break;
            };
            code_left = left;
            blocks.push(block);
        }
        blocks
    }

    /// A sequence of many commands, most of them assignments.
    fn long_block(&mut self) -> Block {
        let top = self.start_block();
        let count = self.random.between(2, 60);
        let command = |author: &mut Self| {
            let depth = usize::from(author.random.one_in(20));
            author.command(depth, top)
        };
        let commands = (0..count).map(|_| command(self)).collect();
        self.block_around(Command::Sequence(commands))
    }
}

/// The most rounds of a counter, so that a run of it ends in the steps that it is
/// given.
const MOST_ROUNDS: usize = 900;

/// A counter goes up by one until it comes to this, and another slot, if there is
/// one, adds up what it was.
pub fn adding_up(slots: &[u8], rounds: usize) -> Command {
    let [counter, others @ ..] = slots else {
        return Command::Skip;
    };
    let number = |integer| Expression::literal(Value::Integer(integer));
    let added = |slot, what| {
        let sum = Expression::operation(Operator::Sum, Expression::read_of(slot), what);
        Command::set(slot, sum)
    };
    let sums = &others[..others.len().min(1)];
    let zero = |slot: &u8| Command::set(*slot, number(0));
    let mut commands: Vec<Command> = sums.iter().chain([counter]).map(zero).collect();
    let add = |slot: &u8| added(*slot, Expression::read_of(*counter));
    let mut body: Vec<Command> = sums.iter().map(add).collect();
    body.push(added(*counter, number(1)));
    let (count, limit) = (Expression::read_of(*counter), number(rounds as Integer));
    let guard = Expression::operation(Operator::LessThan, count, limit);
    commands.push(Command::while_do(guard, Command::all(body)));
    Command::all(commands)
}

/// Counts in binary until its digits overflow: each digit more makes twice as
/// many rounds.
fn digits(mut slots: Vec<u8>) -> Command {
    const MOST_DIGITS: usize = 9;
    let Some(going) = slots.pop() else {
        return Command::Skip;
    };
    slots.truncate(MOST_DIGITS);
    let mut commands = vec![set_truth(going, true)];
    commands.extend(slots.iter().map(|digit| set_truth(*digit, false)));
    // From the last digit to the first: one that is set is cleared, and the
    // next one is counted up.
    let overflow = set_truth(going, false);
    let count_up = slots.iter().rev().fold(overflow, |carry, digit| {
        let cleared = Command::Sequence(vec![set_truth(*digit, false), carry]);
        Command::if_else(
            Expression::read_of(*digit),
            cleared,
            set_truth(*digit, true),
        )
    });
    commands.push(Command::while_do(Expression::read_of(going), count_up));
    Command::all(commands)
}

fn set_truth(slot: u8, holds: bool) -> Command {
    Command::set(slot, Expression::literal(Value::Truth(holds)))
}

#[cfg(test)]
mod tests {
    use super::*;
    use crate::ample::plain_run;
    use crate::answers::Answer;
    use crate::author::Care;
    use crate::code::programme_sheet;
    use crate::random::Random;
    use crate::sheets::Store;

    const CASES: u64 = 300;

    /// Blocks that were written with full care, and their run under rule 3.
    fn played(write: fn(&mut Author) -> Vec<Block>) -> Vec<(Vec<Block>, Answer)> {
        let play = |case| {
            let mut random = Random::of_case(14, case);
            let store = Store::random(&mut random);
            let blocks = write(&mut Author::new(&mut random, &store, Care::FULL));
            let sheet = programme_sheet(&blocks).bytes;
            let answer = plain_run(&store.bytes(), &sheet, 3).second().answer;
            (blocks, answer)
        };
        (0..CASES).map(play).collect()
    }

    fn depth(command: &Command) -> usize {
        let inner = match command {
            Command::Skip | Command::Assign { .. } => 0,
            Command::Sequence(commands) => commands.iter().map(depth).max().unwrap_or(0),
            Command::If {
                then_part,
                else_part,
                ..
            } => depth(then_part).max(depth(else_part)),
            Command::While { body, .. } => depth(body),
        };
        1 + inner
    }

    fn finished(played: &[(Vec<Block>, Answer)]) -> impl Iterator<Item = &(Vec<Block>, Answer)> {
        played.iter().filter(|(_, answer)| answer.number == 0)
    }

    #[test]
    fn deep_blocks_finish_at_every_depth_and_none_is_too_deep() {
        let played = played(|author| vec![author.deep_block()]);
        assert!(played.iter().all(|(_, answer)| answer.number != 10));
        let mut seen = [false; Command::MOST_DEPTH + 1];
        for (blocks, answer) in finished(&played) {
            seen[depth(&blocks[0].command)] |= answer.steps > 0;
        }
        assert!(seen[2..].iter().all(|depth| *depth), "{seen:?}");
        assert!(finished(&played).count() > CASES as usize * 8 / 10);
    }

    #[test]
    fn counting_blocks_end_and_some_take_long() {
        let played = played(|author| vec![author.counting_block()]);
        assert_eq!(finished(&played).count(), CASES as usize);
        let long = finished(&played).filter(|(_, answer)| answer.steps > 1_000);
        assert!(long.count() > 10);
    }

    #[test]
    fn full_programmes_are_good_and_some_finish() {
        let played = played(|author| author.full_programme());
        assert!(played
            .iter()
            .all(|(_, answer)| answer.number > 12 || answer.number == 0));
        let code =
            |blocks: &[Block]| -> usize { blocks.iter().map(|block| block.command.length()).sum() };
        let full = |blocks: &[Block]| code(blocks) > Block::MOST_CODE * 9 / 10;
        let many = finished(&played).filter(|(blocks, _)| full(blocks));
        assert!(many.count() > CASES as usize / 10);
    }
}
