//! Plays a call in stretches on the second runner.

// Each test file uses its own share of this.
#![allow(dead_code)]

use second_runner::{carry_on, start, Answer};
use sheets::{Bytes, Call, PAUSE};

/// What lent buffers hold before the call.
const LENT: u8 = 0xEE;

/// What a stretch came to: its answer, and what was lent to it.
#[derive(Debug, Clone, PartialEq)]
pub struct Stretch {
    pub answer: Answer,
    pub output: Bytes,
    pub pause: Bytes,
}

impl Stretch {
    /// With buffers that hold what they held when they were lent.
    fn lent(call: &Call) -> Stretch {
        Stretch {
            answer: Answer {
                number: u32::MAX,
                block: 0,
                offset: 0,
                steps: 0,
            },
            output: vec![LENT; call.output_bytes()],
            pause: vec![LENT; PAUSE],
        }
    }

    pub fn is_spent(&self) -> bool {
        self.answer.number == 17
    }

    /// The output and the pause sheet, which were written.
    pub fn checkpoint(&self) -> (&[u8], &[u8]) {
        assert!(self.is_spent());
        (&self.output, &self.pause)
    }

    pub fn path_length(&self) -> usize {
        usize::from(self.pause[4])
    }

    #[track_caller]
    pub fn assert_number(&self, number: u32) {
        assert_eq!(self.answer.number, number, "{:?}", self.answer);
    }

    #[track_caller]
    pub fn assert_untouched(&self) {
        let mut all = self.output.iter().chain(&self.pause);
        assert!(all.all(|byte| *byte == LENT), "{self:?}");
    }

    #[track_caller]
    pub fn assert_pause_untouched(&self) {
        assert!(self.pause.iter().all(|byte| *byte == LENT), "{self:?}");
    }
}

/// The first stretch, up to the call's budget.
pub fn first(call: &Call) -> Stretch {
    let mut stretch = Stretch::lent(call);
    stretch.answer = start(
        &call.store,
        &call.programme,
        call.rule,
        call.budget,
        &mut stretch.output,
        &mut stretch.pause,
    );
    stretch
}

/// The next stretch from there on, up to the call's budget.
pub fn next(call: &Call, (output, pause): (&[u8], &[u8])) -> Stretch {
    let mut stretch = Stretch::lent(call);
    stretch.answer = carry_on(
        &call.store,
        &call.programme,
        call.rule,
        call.budget,
        output,
        pause,
        &mut stretch.output,
        &mut stretch.pause,
    );
    stretch
}
