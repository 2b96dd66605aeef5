//! The pause sheet (document 02, N8): "steps so far (4 bytes), path length (1),
//! block number (1), then two parallel arrays of one byte an entry". Refusal 19.

use crate::answer::Answer;
use crate::bytes::{number, take};
use crate::code::Block;
use crate::order::Order;
use crate::way::{Taken, Way};

/// Where a run stands between two stretches.
#[derive(Debug, Clone)]
pub(crate) struct Pause {
    pub steps: u32,
    pub way: Way,
}

impl Pause {
    /// "a lent buffer of exactly 256 bytes"
    pub const BYTES: usize = 256;
    const STEPS_BYTES: usize = 4;
    const LENGTH_BYTES: usize = 1;
    const BLOCK_BYTES: usize = 1;

    /// Before the first step.
    pub fn opening() -> Pause {
        Pause {
            steps: Answer::NO_STEPS,
            way: Way::opening(),
        }
    }

    /// The place that a sheet says, unless it is to be refused by 19. Of the
    /// arrays the second starts where the first ends.
    pub fn from_sheet(sheet: &[u8], blocks: &[Block], order: &Order) -> Option<Pause> {
        let mut rest = sheet;
        let steps = number(take(&mut rest, Pause::STEPS_BYTES)?) as u32;
        let length = number(take(&mut rest, Pause::LENGTH_BYTES)?) as usize;
        let block = number(take(&mut rest, Pause::BLOCK_BYTES)?) as usize;
        let children = take(&mut rest, length)?;
        let labels = take(&mut rest, length)?;
        // "an unused byte isn't 0"
        if rest.iter().any(|unused| *unused != 0) {
            return None;
        }
        let parts = children.iter().zip(labels).map(|(child, label)| {
            let child = *child;
            let label = order.principal(*label)?;
            Some(Taken { child, label })
        });
        let parts = parts.collect::<Option<_>>()?;
        let way = Way { block, parts };
        way.leads_to_a_step(blocks, order)
            .then_some(Pause { steps, way })
    }

    /// Writes the sheet to a buffer of just its length. Commands nest 32 deep and
    /// there are 64 blocks, so each number fits its byte and both arrays the sheet.
    pub fn write_to(&self, sheet: &mut [u8]) {
        let Way { block, parts } = &self.way;
        let steps = self.steps.to_le_bytes();
        let sizes = [parts.len() as u8, *block as u8];
        let children = parts.iter().map(|taken| taken.child);
        let labels = parts.iter().map(|taken| taken.label.number());
        let used = steps.into_iter().chain(sizes).chain(children).chain(labels);
        // "Unused bytes are 0."
        let bytes = used.chain(std::iter::repeat(0));
        sheet
            .iter_mut()
            .zip(bytes)
            .for_each(|(at, byte)| *at = byte);
    }
}
