//! What every call judges first: its arguments, then both sheets.

use crate::answer::{Answer, Refusal};
use crate::code::{parse_blocks, Block};
use crate::journal::Journal;
use crate::pause::Pause;
use crate::programme::ProgrammeSheet;
use crate::rule::{Budget, RuleSet};
use crate::run::{End, Run};
use crate::sheet::Store;
use crate::watch::Watch;

/// A call whose arguments and sheets are good.
pub(crate) struct Judged {
    rule: RuleSet,
    budget: Budget,
    /// As the store sheet has it.
    pub store: Store,
    pub blocks: Vec<Block>,
}

impl Judged {
    /// "Order: 11; store ...; programme ...; 9 or 10 in byte order"
    pub fn judge(store: &[u8], programme: &[u8], rule: u32, budget: u32) -> Result<Judged, Answer> {
        let rule = RuleSet::from_number(rule).ok_or(Refusal::Arguments)?;
        let budget = Budget::from_steps(budget).ok_or(Refusal::Arguments)?;
        let store = Store::from_sheet(store)?;
        let sheet = ProgrammeSheet::from_bytes(programme, &store.table.order)?;
        let blocks = parse_blocks(&sheet, store.table.slots())?;
        Ok(Judged {
            rule,
            budget,
            store,
            blocks,
        })
    }

    /// Judges the length of an output by 12.
    pub fn judge_output(&self, output: &[u8]) -> Result<(), Refusal> {
        let fits = output.len() == self.store.output_bytes();
        fits.then_some(()).ok_or(Refusal::OutputLength)
    }

    /// Runs the blocks from there on, over its store.
    pub fn run(self, from: Pause, journal: Option<Journal>, watch: &mut impl Watch) -> End {
        let run = Run {
            store: self.store,
            rule: self.rule,
            budget: self.budget,
            steps: from.steps,
            journal,
            block: from.way.block,
            watch,
        };
        run.blocks(&self.blocks, &from.way)
    }
}
