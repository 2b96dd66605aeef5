//! A case: a call of the runner, and the answer that documents 01 and 02 give
//! it, worked by hand.

use sheets::*;

pub struct Case {
    pub name: String,
    /// The sentence of document 01 or 02, or of the paper, that the case is
    /// about.
    pub says: &'static str,
    pub call: Call,
    /// The length of the output that is lent.
    pub output: usize,
    /// A call in stretches has no journal.
    pub stretch: Option<Stretch>,
    pub expected: Expected,
    /// The entries of a finished run, where they are worked by hand too.
    pub entries: Option<Vec<Entry>>,
}

/// What a call in stretches gets beside what a run does (document 02, N8).
#[derive(Clone)]
pub struct Stretch {
    /// The length of the pause buffer that is lent.
    pub pause: usize,
    /// What it carries on from; none at the start.
    pub old: Option<Checkpoint>,
}

/// "the old output and pause sheet, only read, as opening values and place"
#[derive(Clone)]
pub struct Checkpoint {
    pub output: Bytes,
    pub pause: Bytes,
}

/// What an assignment fills: "block, offset, slot, old value, new value"
/// (document 02, N7).
#[derive(Debug, Clone, PartialEq, Eq)]
pub struct Entry {
    pub block: usize,
    pub offset: usize,
    pub slot: usize,
    pub old: Bytes,
    pub new: Bytes,
}

impl Case {
    /// The run fills just these entries.
    pub fn fills(mut self, entries: Vec<Entry>) -> Case {
        self.entries = Some(entries);
        self
    }
}

/// "Each answer is number, block, offset, steps."
#[derive(Debug, Clone, Copy, PartialEq, Eq)]
pub struct Answer {
    pub number: u32,
    pub block: u32,
    pub offset: u32,
    pub steps: u32,
}

/// How a call ends.
#[derive(Clone)]
pub struct Expected {
    pub answer: Answer,
    /// The end store of a finished run; a refused one leaves the output as it
    /// was, unless it pauses.
    pub end: Option<Bytes>,
    /// The pause sheet of one that pauses.
    pub pause: Option<Bytes>,
}

fn answer_of(number: u32, block: u32, offset: usize, steps: u32) -> Answer {
    Answer {
        number,
        block,
        offset: u32::try_from(offset).expect("an offset in a block"),
        steps,
    }
}

/// A run of so many blocks finishes in so many steps with these slots.
pub fn finished(blocks: usize, steps: u32, end: &[EndSlot]) -> Expected {
    let blocks = u32::try_from(blocks).expect("a number of blocks");
    Expected {
        answer: answer_of(0, blocks, 0, steps),
        end: Some(output(end)),
        pause: None,
    }
}

/// A run in stretches pauses after so many steps, in a block at the end of a path,
/// with these slots; the command whose step is next has this offset.
pub fn paused(steps: u32, block: u8, path: &[Taken], offset: usize, slots: &[EndSlot]) -> Expected {
    Expected {
        answer: answer_of(17, u32::from(block), offset, steps),
        end: Some(output(slots)),
        pause: Some(pause(steps, block, path)),
    }
}

/// A call is refused at this place after so many steps.
pub fn refused(number: u32, block: u32, offset: usize, steps: u32) -> Expected {
    Expected {
        answer: answer_of(number, block, offset, steps),
        end: None,
        pause: None,
    }
}

/// A case in the making: document 01's store, no blocks, rule 0, steps and
/// entries enough and an output of the length that the store sheet asks for,
/// unless said.
#[derive(Clone)]
pub struct Draft {
    name: String,
    says: &'static str,
    store: Bytes,
    programme: Bytes,
    rule: u32,
    budget: u32,
    output: Option<usize>,
    journal: usize,
    stretch: Option<Stretch>,
}

pub fn case(name: impl Into<String>, says: &'static str) -> Draft {
    Draft {
        name: name.into(),
        says,
        store: example_store(),
        programme: programme(&[]),
        rule: 0,
        budget: AMPLE,
        output: None,
        journal: AMPLE_ENTRIES,
        stretch: None,
    }
}

impl Draft {
    /// The same with more to its name.
    pub fn variant(mut self, word: &str) -> Draft {
        self.name = format!("{} {word}", self.name);
        self
    }

    pub fn store(mut self, sheet: Bytes) -> Draft {
        self.store = sheet;
        self
    }

    pub fn programme(mut self, sheet: Bytes) -> Draft {
        self.programme = sheet;
        self
    }

    pub fn blocks(self, blocks: &[(u8, Bytes)]) -> Draft {
        self.programme(programme(blocks))
    }

    pub fn block(self, region: u8, code: Bytes) -> Draft {
        self.blocks(&[(region, code)])
    }

    /// Blocks with a floor byte each; those above have floor 0.
    pub fn floored_blocks(self, blocks: &[FlooredBlock]) -> Draft {
        self.programme(programme_with_floors(blocks))
    }

    pub fn floored(self, region: u8, floor: u8, code: Bytes) -> Draft {
        self.floored_blocks(&[(region, floor, code)])
    }

    pub fn rule(mut self, rule: u32) -> Draft {
        self.rule = rule;
        self
    }

    pub fn budget(mut self, budget: u32) -> Draft {
        self.budget = budget;
        self
    }

    pub fn output(mut self, length: usize) -> Draft {
        self.output = Some(length);
        self
    }

    pub fn journal(mut self, entries: usize) -> Draft {
        self.journal = entries;
        self
    }

    /// The first stretch of a run.
    pub fn start(self) -> Draft {
        self.stretch(None)
    }

    /// The next one, from these bytes on.
    pub fn carry_on(self, output: Bytes, pause: Bytes) -> Draft {
        self.stretch(Some(Checkpoint { output, pause }))
    }

    fn stretch(mut self, old: Option<Checkpoint>) -> Draft {
        let pause = PAUSE;
        self.stretch = Some(Stretch { pause, old });
        self.journal(0)
    }

    /// A call in stretches with a pause buffer of this length.
    pub fn pause(mut self, length: usize) -> Draft {
        let stretch = self.stretch.as_mut();
        stretch.expect("a call in stretches").pause = length;
        self
    }

    /// The run finishes in so many steps with these slots.
    pub fn finishes(self, steps: u32, end: &[EndSlot]) -> Case {
        let blocks = usize::from(self.programme[0]);
        self.ends(finished(blocks, steps, end))
    }

    /// The run pauses after so many steps, in this block at the end of this path; the
    /// command there has this offset.
    pub fn pauses(
        self,
        steps: u32,
        block: u8,
        path: &[Taken],
        offset: usize,
        slots: &[EndSlot],
    ) -> Case {
        self.ends(paused(steps, block, path, offset, slots))
    }

    /// The call is refused just so.
    pub fn refused(self, number: u32, block: u32, offset: usize, steps: u32) -> Case {
        self.ends(refused(number, block, offset, steps))
    }

    /// "Numbers 1 to 8, 11 and 12 give block, offset and steps 0"
    pub fn refused_early(self, number: u32) -> Case {
        self.refused(number, 0, 0, 0)
    }

    pub fn ends(self, expected: Expected) -> Case {
        let call = call(&self.store, &self.programme, self.rule)
            .budget(self.budget)
            .journal(self.journal);
        Case {
            name: self.name,
            says: self.says,
            output: self.output.unwrap_or(call.output_bytes()),
            call,
            stretch: self.stretch,
            expected,
            entries: None,
        }
    }
}
