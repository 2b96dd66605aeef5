//! Plays a call on the second runner, and says the two ways in which it may
//! end.

// Each test file uses its own share of this.
#![allow(dead_code)]

use second_runner::{run, Answer, Entry, Value};
use sheets::{output, Bytes, Call, EndSlot};

/// How many numbers an answer may have: 0 to 18.
pub const NUMBERS: usize = 19;

/// What a lent output and a lent journal hold before the call.
const LENT: u8 = 0xEE;
const LENT_PLACE: usize = usize::MAX / 3;
const LENT_VALUE: Value = Value {
    kind: LENT,
    payload: u64::MAX / 5,
};
pub const LENT_ENTRY: Entry = Entry {
    block: LENT_PLACE,
    offset: LENT_PLACE,
    slot: LENT_PLACE,
    old: LENT_VALUE,
    new: LENT_VALUE,
};

/// What a call came to: its answer, and what was lent to it.
#[derive(Debug, Clone, PartialEq)]
pub struct Played {
    pub answer: Answer,
    pub output: Bytes,
    pub journal: Vec<Entry>,
}

impl Played {
    /// The entries up to the first that is as it was lent. None that a run
    /// fills is: no value has that kind.
    pub fn entries(&self) -> &[Entry] {
        let filled = |entry: &&Entry| **entry != LENT_ENTRY;
        &self.journal[..self.journal.iter().take_while(filled).count()]
    }

    /// Everything that was lent is as it was.
    #[track_caller]
    pub fn assert_untouched(&self) {
        let Played {
            output, journal, ..
        } = self;
        assert!(output.iter().all(|byte| *byte == LENT), "{output:?}");
        assert!(journal.iter().all(|entry| *entry == LENT_ENTRY));
    }
}

pub trait Play {
    /// Lends an output of this length.
    fn lend(&self, length: usize) -> Played;

    /// Lends an output of the length that the store sheet asks for.
    fn play(&self) -> Played;

    /// The run finishes in so many steps with these slots.
    fn finishes(&self, steps: u32, end: &[EndSlot]);

    /// The call is refused just so, and leaves what was lent as it was.
    fn refused(&self, number: u32, block: u32, offset: usize, steps: u32);
}

impl Play for Call {
    fn lend(&self, length: usize) -> Played {
        let mut output = vec![LENT; length];
        let mut journal = vec![LENT_ENTRY; self.journal];
        let answer = run(
            &self.store,
            &self.programme,
            self.rule,
            self.budget,
            &mut output,
            &mut journal,
        );
        Played {
            answer,
            output,
            journal,
        }
    }

    fn play(&self) -> Played {
        self.lend(self.output_bytes())
    }

    #[track_caller]
    fn finishes(&self, steps: u32, end: &[EndSlot]) {
        let played = self.play();
        let block = u32::from(self.programme[0]);
        assert_eq!(played.answer, answer_of(0, block, 0, steps));
        assert_eq!(played.output, output(end));
    }

    #[track_caller]
    fn refused(&self, number: u32, block: u32, offset: usize, steps: u32) {
        let played = self.play();
        assert_eq!(played.answer, answer_of(number, block, offset, steps));
        played.assert_untouched();
    }
}

fn answer_of(number: u32, block: u32, offset: usize, steps: u32) -> Answer {
    Answer {
        number,
        block,
        offset: u32::try_from(offset).expect("an offset in a block"),
        steps,
    }
}
