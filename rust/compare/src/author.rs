//! Programmes with a meaning: targets that are write views of real slots,
//! guards that are truth values, loops that end.
//!
//! The author rehearses what it has written, so it knows what the slots hold,
//! and minds the rules as far as its care goes: with all of it a programme
//! finishes under every rule, with less some step is forbidden.

mod bounds;
mod branches;
mod endorsements;
mod expressions;
mod large;
mod loops;

pub use self::endorsements::any_byte;
pub use self::large::adding_up;

use crate::code::{Block, Command, Endorsement};
use crate::expressions::Expression;
use crate::random::Random;
use crate::rehearsal::Rehearsal;
use crate::sheets::{Store, Table};
use crate::values::Value;

/// In percent, how often the author minds what a step is refused for.
#[derive(Debug, Clone, Copy)]
pub struct Care {
    /// 13
    pub kinds: usize,
    /// 14
    pub authority: usize,
    /// 15
    pub views: usize,
    /// 16 by the label of a target or a value.
    pub labels: usize,
    /// 16 by the label of the branch.
    pub branches: usize,
}

impl Care {
    pub const FULL: Care = Care {
        kinds: 100,
        authority: 100,
        views: 100,
        labels: 100,
        branches: 100,
    };

    pub fn random(random: &mut Random) -> Care {
        if random.one_in(3) {
            return Care::FULL;
        }
        Care {
            kinds: random.pick(&[100, 100, 100, 99, 97, 80]),
            authority: random.pick(&[100, 100, 98, 90, 50]),
            views: random.pick(&[100, 98, 90, 50]),
            labels: random.pick(&[100, 100, 90, 60, 0]),
            branches: random.pick(&[100, 100, 60, 0]),
        }
    }
}

pub struct Author<'a> {
    random: &'a mut Random,
    stage: Rehearsal<'a>,
    care: Care,
    region: u8,
    endorsement: Endorsement,
    /// How deep expressions may be.
    most_depth: usize,
}

impl<'a> Author<'a> {
    pub fn new(random: &'a mut Random, store: &'a Store, care: Care) -> Author<'a> {
        Author {
            random,
            stage: store.stage(),
            care,
            region: 0,
            endorsement: Endorsement::Absent { ignored: 0 },
            most_depth: Expression::MOST_DEPTH,
        }
    }

    pub fn random(&mut self) -> &mut Random {
        self.random
    }

    pub fn table(&self) -> &'a Table {
        self.stage.table
    }

    /// Blocks of any region, some endorsed, as many as there is code for. Now
    /// and then expressions may be one deeper than allowed.
    pub fn programme(&mut self) -> Vec<Block> {
        self.most_depth += usize::from(self.random.one_in(60));
        let count = match self.random.below(20) {
            0 => 0,
            1..=12 => self.random.between(1, 3),
            13..=18 => self.random.between(3, 7),
            _ => self.random.between(1, Block::MOST),
        };
        let mut code_left = Block::MOST_CODE;
        let mut blocks = Vec::new();
        for _ in 0..count {
            let block = self.any_block();
            let Some(left) = code_left.checked_sub(block.command.length()) else {
                break;
            };
            code_left = left;
            blocks.push(block);
        }
        blocks
    }

    pub fn any_block(&mut self) -> Block {
        let region = self.any_region();
        let endorsement = self.any_endorsement(region, 4);
        self.block(region, endorsement)
    }

    /// Often a region that may write some slot.
    pub fn any_region(&mut self) -> u8 {
        let table = self.stage.table;
        match self.random.below(4) {
            0 => table.lattice.top(),
            1 => self.random.pick_any(&table.owners).unwrap_or(0),
            _ => self.random.below(table.lattice.principals()) as u8,
        }
    }

    pub fn block(&mut self, region: u8, endorsement: Endorsement) -> Block {
        let depth = self.random.below(5);
        self.block_of_depth(region, endorsement, depth)
    }

    /// A block whose own commands nest about this deep.
    pub fn block_of_depth(&mut self, region: u8, endorsement: Endorsement, depth: usize) -> Block {
        self.region = region;
        self.endorsement = endorsement;
        let top = self.stage.table.lattice.top();
        let command = if depth > 0 && self.random.percent(60) {
            self.sequence(depth - 1, top)
        } else {
            self.command(depth, top)
        };
        Block {
            region,
            endorsement,
            command,
        }
    }

    /// Plays a block that another author wrote.
    pub fn watch(&mut self, block: &Block) {
        self.stage.play(&block.command);
    }

    /// A command under this branch label. The rehearsal has played it.
    fn command(&mut self, depth: usize, branch: u8) -> Command {
        let forms = if depth == 0 { 11 } else { 20 };
        match self.random.below(forms) {
            0 => Command::Skip,
            1..=10 => self.assignment(branch),
            11..=13 => self.sequence(depth - 1, branch),
            14..=17 => self.branching(depth - 1, branch),
            _ => self.looping(depth - 1, branch),
        }
    }

    fn sequence(&mut self, depth: usize, branch: u8) -> Command {
        if let Some(planted) = self.planted(branch) {
            return planted;
        }
        let count = self.random.between(2, 4);
        Command::Sequence((0..count).map(|_| self.command(depth, branch)).collect())
    }

    fn assignment(&mut self, branch: u8) -> Command {
        let Some(slot) = self.writable(branch) else {
            return self.without_slot();
        };
        let [for_target, for_value] = self.bounds(slot, branch);
        let target = self.target(slot, for_target);
        let value = self.value_for(slot, for_value);
        self.played(Command::Assign { target, value })
    }

    /// Where no slot may be written there is mostly nothing to do.
    fn without_slot(&mut self) -> Command {
        if self.minds(self.care.kinds) {
            return Command::Skip;
        }
        let (target, value) = (self.any_expression(), self.any_expression());
        self.played(Command::Assign { target, value })
    }

    fn played(&mut self, command: Command) -> Command {
        self.stage.play(&command);
        command
    }

    fn minds(&mut self, care: usize) -> bool {
        self.random.percent(care)
    }

    /// The branch label inside a part.
    fn inside(&self, branch: u8, guard: &Expression) -> u8 {
        match self.stage.evaluate(guard) {
            Some((_, label)) => self.stage.table.lattice.meet(branch, label),
            None => branch,
        }
    }
}

fn slots_where(values: &[Value], test: impl Fn(u8, Value) -> bool) -> Vec<u8> {
    let all = values.iter().enumerate();
    all.map(|(slot, value)| (slot as u8, *value))
        .filter(|(slot, value)| test(*slot, *value))
        .map(|(slot, _)| slot)
        .collect()
}

#[cfg(test)]
mod tests {
    use super::*;
    use crate::ample::plain_run;
    use crate::code::programme_sheet;
    use crate::tally::NUMBERS;

    const RULES: [u32; 4] = [0, 1, 2, 3];

    /// How often each number is the answer under a rule to programmes that
    /// were written with this care.
    fn answers(care: Care, rule: u32) -> [u32; NUMBERS] {
        let mut counts = [0; NUMBERS];
        for case in 0..1_000 {
            let mut random = Random::of_case(11, case);
            let store = Store::random(&mut random);
            let blocks = Author::new(&mut random, &store, care).programme();
            let sheet = programme_sheet(&blocks).bytes;
            let answer = plain_run(&store.bytes(), &sheet, rule).second().answer;
            counts[answer.number as usize] += 1;
        }
        counts
    }

    #[test]
    fn with_full_care_most_programmes_finish_under_every_rule() {
        for rule in RULES {
            let counts = answers(Care::FULL, rule);
            assert!(counts[0] > 800, "rule {rule}: {counts:?}");
        }
    }

    /// All care but for one part of it.
    fn care_but(part: fn(&mut Care) -> &mut usize, percent: usize) -> Care {
        let mut care = Care::FULL;
        *part(&mut care) = percent;
        care
    }

    #[test]
    fn what_is_not_minded_is_refused() {
        let kinds = care_but(|care| &mut care.kinds, 70);
        let authority = care_but(|care| &mut care.authority, 0);
        let views = care_but(|care| &mut care.views, 0);
        let labels = care_but(|care| &mut care.labels, 0);
        let branches = care_but(|care| &mut care.branches, 0);
        assert!(RULES.iter().all(|rule| answers(kinds, *rule)[13] > 200));
        assert!([0, 2, 3]
            .iter()
            .all(|rule| answers(authority, *rule)[14] > 200));
        assert!(answers(views, 1)[15] > 50);
        assert!([2, 3].iter().all(|rule| answers(labels, *rule)[16] > 50));
        assert!(answers(branches, 3)[16] > answers(branches, 2)[16] + 50);
    }
}
