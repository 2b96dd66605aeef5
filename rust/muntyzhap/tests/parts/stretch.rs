//! Stretches of a run whose output and pause buffer are lent, with marks in them.

use super::lent::BYTE;
use super::OUTPUT;
use muntyzhap::raw::{self, Answer};

/// "a lent buffer of exactly 256 bytes"
pub const PAUSE: usize = 256;

/// What a stretch was lent, as it left that, and its answer.
#[derive(Debug, Clone, PartialEq, Eq)]
pub struct Stretch {
    pub answer: Answer,
    pub out: Vec<u8>,
    pub pause: Vec<u8>,
}

/// The sheets and arguments of a stretch.
#[derive(Debug, Clone, Copy)]
pub struct Given<'a> {
    pub store: &'a [u8],
    pub programme: &'a [u8],
    pub rule: u32,
    pub budget: u32,
}

impl Stretch {
    /// What no stretch has had yet, of these lengths.
    pub fn lent(out: usize, pause: usize) -> Stretch {
        Stretch {
            answer: Answer::only(u32::MAX),
            out: vec![BYTE; out],
            pause: vec![BYTE; pause],
        }
    }

    /// The same after a first stretch.
    pub fn start(mut self, given: Given) -> Stretch {
        self.answer = raw::start(
            given.store,
            given.programme,
            given.rule,
            given.budget,
            &mut self.out,
            &mut self.pause,
        );
        self
    }

    /// The same after a stretch from what another one left.
    pub fn carry_on(mut self, given: Given, from: &Stretch) -> Stretch {
        self.answer = raw::carry_on(
            given.store,
            given.programme,
            given.rule,
            given.budget,
            &from.out,
            &from.pause,
            &mut self.out,
            &mut self.pause,
        );
        self
    }

    /// The first stretch, over a store of two slots.
    pub fn first(given: Given) -> Stretch {
        Stretch::lent(OUTPUT, PAUSE).start(given)
    }

    /// The stretch after this one, over a store of two slots.
    pub fn next(&self, given: Given) -> Stretch {
        Stretch::lent(OUTPUT, PAUSE).carry_on(given, self)
    }

    /// Whether every byte of both is as it was.
    pub fn is_untouched(&self) -> bool {
        self.out.iter().all(|byte| *byte == BYTE) && self.pause_is_untouched()
    }

    pub fn pause_is_untouched(&self) -> bool {
        self.pause.iter().all(|byte| *byte == BYTE)
    }
}
