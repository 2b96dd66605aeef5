//! A run that finishes, by hand: where it stands before each of its steps.

use super::PATH;
use crate::case::{case, paused, Case, Draft, Expected};
use sheets::*;

/// Where a run stands before a step, and what its slots hold then.
#[derive(Clone)]
pub struct Stop {
    pub block: u8,
    pub path: Vec<Taken>,
    /// The offset of the command whose step is next.
    pub offset: usize,
    pub slots: Vec<EndSlot>,
}

/// A stop in this block.
pub fn stop(block: u8, path: &[Taken], offset: usize, slots: &[EndSlot]) -> Stop {
    Stop {
        block,
        path: path.to_vec(),
        offset,
        slots: slots.to_vec(),
    }
}

impl Stop {
    /// The output and the pause sheet after so many steps.
    pub fn checkpoint(&self, steps: u32) -> (Bytes, Bytes) {
        (output(&self.slots), pause(steps, self.block, &self.path))
    }
}

pub struct Trace {
    pub name: &'static str,
    pub store: Bytes,
    pub blocks: Vec<(u8, Bytes)>,
    /// One before each step.
    pub stops: Vec<Stop>,
    pub end: Vec<EndSlot>,
}

impl Trace {
    pub fn steps(&self) -> u32 {
        self.stops.len() as u32
    }

    /// A call over the same sheets.
    pub fn draft(&self, what: &str, rule: u32) -> Draft {
        case(format!("{}, {what}, rule {rule}", self.name), PATH)
            .store(self.store.clone())
            .blocks(&self.blocks)
            .rule(rule)
    }

    /// What a stretch comes to that may do steps up to this number.
    pub fn after(&self, steps: u32) -> Expected {
        match self.stops.get(steps as usize) {
            Some(stop) => paused(steps, stop.block, &stop.path, stop.offset, &stop.slots),
            None => crate::case::finished(self.blocks.len(), self.steps(), &self.end),
        }
    }

    /// Starts up to this step.
    pub fn start(&self, budget: u32, rule: u32) -> Case {
        let draft = self.draft(&format!("start with {budget}"), rule);
        draft.start().budget(budget).ends(self.after(budget))
    }

    /// Carries on from the stop before one step up to another.
    pub fn carry_on(&self, from: u32, budget: u32, rule: u32) -> Case {
        let (output, pause) = self.stops[from as usize].checkpoint(from);
        let draft = self.draft(&format!("from {from} with {budget}"), rule);
        draft
            .carry_on(output, pause)
            .budget(budget)
            .ends(self.after(budget.max(from)))
    }

    /// Started with every budget up to the steps, and carried on from every stop by
    /// one step and to the end.
    pub fn every_cut(&self, rule: u32) -> Vec<Case> {
        let stops: Vec<u32> = (0..self.steps()).collect();
        self.cuts(&stops, rule)
    }

    /// Carried on from every stop to every later one.
    pub fn every_stretch(&self, rule: u32) -> Vec<Case> {
        let later = |from| (from + 2..self.steps()).map(move |to| (from, to));
        let all = (0..self.steps()).flat_map(later);
        all.map(|(from, to)| self.carry_on(from, to, rule))
            .collect()
    }

    /// The same of some of the stops.
    pub fn cuts(&self, stops: &[u32], rule: u32) -> Vec<Case> {
        let mut cases = vec![self.start(AMPLE, rule), self.start(self.steps(), rule)];
        for from in stops {
            cases.push(self.start(*from, rule));
            cases.push(self.carry_on(*from, from + 1, rule));
            cases.push(self.carry_on(*from, AMPLE, rule));
        }
        cases
    }
}
