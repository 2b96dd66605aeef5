//! Calls that both runners get, and what is seen of each.

mod difference;
mod stretch;

pub use self::difference::Difference;
pub use self::stretch::{Stretch, StretchRunner};

use crate::answers::Answer;
use crate::journals::{self, walk, Journal, Words};
use crate::layout::Layout;
use crate::outputs::Record;
use crate::{proved, second};

/// One call, with all its bytes.
#[derive(Debug, Clone)]
pub enum Call {
    CheckStore {
        sheet: Vec<u8>,
    },
    CheckTable {
        sheet: Vec<u8>,
    },
    CheckProgramme {
        sheet: Vec<u8>,
        principals: usize,
        slots: usize,
    },
    Run(Run),
    Stretch(Stretch),
}

/// One whole run.
#[derive(Debug, Clone)]
pub struct Run {
    pub store: Vec<u8>,
    pub programme: Vec<u8>,
    pub rule: u32,
    pub budget: u32,
    pub output_length: usize,
    /// The entries of the journal that is lent.
    pub journal_length: usize,
}

/// What can be seen of a call: its answer, every byte of the output and of the pause
/// buffer, and the journal.
#[derive(Debug, Clone, PartialEq, Eq)]
pub struct Seen {
    pub answer: Answer,
    output: Lent,
    pub journal: Journal,
    pause: Lent,
}

impl Seen {
    fn answer(answer: Answer) -> Seen {
        Seen {
            answer,
            output: Lent::new(0),
            journal: Journal::none(),
            pause: Lent::new(0),
        }
    }

    fn number(number: u32) -> Seen {
        Seen::answer(Answer::only(number))
    }

    pub fn output(&self) -> &[u8] {
        self.output.lent()
    }

    /// What goes against the documents in what this run left, in words.
    fn fault(&self, run: &Run) -> Option<String> {
        let journal = &self.journal;
        let words = match self.answer.number {
            0 => match walk(run, self.output(), &journal.filled) {
                Err(fault) => return Some(fault.to_string()),
                Ok(()) if journal.strays.is_empty() => return None,
                Ok(()) => "entries past the writes are not as lent",
            },
            _ if !journal.is_untouched() => "refused, and the journal is not as lent",
            _ if !self.output.is_untouched() => "refused, and the output is not as lent",
            _ => return None,
        };
        Some(words.to_string())
    }
}

/// A buffer lent to a call, between margins that are not lent. All of it
/// starts with a pattern, so a byte that was touched shows.
#[derive(Debug, Clone, PartialEq, Eq)]
struct Lent {
    bytes: Vec<u8>,
}

impl Lent {
    /// Room for a slot too many.
    const MARGIN: usize = 2 * Record::WIDTH;

    fn new(length: usize) -> Lent {
        let pattern = |place: usize| 0xA0 ^ (place % 0x1F) as u8;
        Lent {
            bytes: (0..length + 2 * Lent::MARGIN).map(pattern).collect(),
        }
    }

    fn lend(&mut self) -> &mut [u8] {
        let end = self.bytes.len() - Lent::MARGIN;
        &mut self.bytes[Lent::MARGIN..end]
    }

    fn lent(&self) -> &[u8] {
        let end = self.bytes.len() - Lent::MARGIN;
        &self.bytes[Lent::MARGIN..end]
    }

    fn is_untouched(&self) -> bool {
        *self == Lent::new(self.lent().len())
    }
}

/// A way to run: the run, with the output and the journal that are lent.
pub type Runner = fn(&Run, &mut [u8], &mut [Words]) -> Answer;

/// What stands for the proved runner.
#[derive(Debug, Clone, Copy)]
pub struct Runners {
    pub run: Runner,
    pub stretch: StretchRunner,
}

impl Runners {
    pub const PROVED: Runners = Runners {
        run: proved::run,
        stretch: proved::stretch,
    };
}

impl Run {
    fn by(&self, runner: Runner) -> Seen {
        let mut output = Lent::new(self.output_length);
        let mut journal = journals::Lent::new(self.journal_length);
        let answer = runner(self, output.lend(), journal.lend());
        Seen {
            answer,
            output,
            journal: journal.seen(),
            pause: Lent::new(0),
        }
    }

    pub fn second(&self) -> Seen {
        self.by(second::run)
    }
}

impl Call {
    /// What both runners do, if it is the same and as it should be.
    pub fn compare(&self) -> Result<Seen, Box<Difference>> {
        self.compare_to(Runners::PROVED)
    }

    /// The same with another runner in place of the proved one.
    pub fn compare_to(&self, runners: Runners) -> Result<Seen, Box<Difference>> {
        let (proved, second) = (self.proved(runners), self.second());
        let fault = match proved.answer == second.answer {
            true => self.fault(&proved).or_else(|| self.fault(&second)),
            false => None,
        };
        if proved == second && fault.is_none() {
            return Ok(proved);
        }
        Err(Box::new(Difference {
            call: self.clone(),
            runners,
            proved,
            second,
            fault,
        }))
    }

    fn fault(&self, seen: &Seen) -> Option<String> {
        match self {
            Call::Run(run) => seen.fault(run),
            Call::Stretch(stretch) => stretch.fault(seen),
            _ => None,
        }
    }

    fn proved(&self, runners: Runners) -> Seen {
        match self {
            Call::CheckStore { sheet } => Seen::number(proved::check_store(sheet)),
            Call::CheckTable { sheet } => Seen::number(proved::check_table(sheet)),
            Call::CheckProgramme {
                sheet,
                principals,
                slots,
            } => Seen::answer(proved::check_programme(sheet, *principals, *slots)),
            Call::Run(run) => run.by(runners.run),
            Call::Stretch(stretch) => stretch.by(runners.stretch),
        }
    }

    pub fn second(&self) -> Seen {
        match self {
            Call::CheckStore { sheet } => Seen::number(second_runner::check_store(sheet)),
            Call::CheckTable { sheet } => Seen::number(second_runner::check_table(sheet)),
            Call::CheckProgramme {
                sheet,
                principals,
                slots,
            } => Seen::answer(second::check_programme(sheet, *principals, *slots)),
            Call::Run(run) => run.second(),
            Call::Stretch(stretch) => stretch.second(),
        }
    }

    /// The store sheet, if the call has one.
    pub fn store(&self) -> Option<&[u8]> {
        match self {
            Call::CheckStore { sheet } => Some(sheet),
            Call::Run(run) => Some(&run.store),
            Call::Stretch(stretch) => Some(&stretch.store),
            _ => None,
        }
    }

    /// The programme sheet, if the call has one.
    pub fn programme(&self) -> Option<&[u8]> {
        match self {
            Call::CheckProgramme { sheet, .. } => Some(sheet),
            Call::Run(run) => Some(&run.programme),
            Call::Stretch(stretch) => Some(&stretch.programme),
            _ => None,
        }
    }

    /// The same call with another store sheet, if it has one.
    pub fn with_store(&self, store: Vec<u8>) -> Call {
        let mut call = self.clone();
        match &mut call {
            Call::CheckStore { sheet } => *sheet = store,
            Call::Run(run) => run.store = store,
            Call::Stretch(stretch) => stretch.store = store,
            _ => (),
        }
        call
    }

    /// The same call with another programme sheet, if it has one.
    pub fn with_programme(&self, programme: Vec<u8>) -> Call {
        let mut call = self.clone();
        match &mut call {
            Call::CheckProgramme { sheet, .. } => *sheet = programme,
            Call::Run(run) => run.programme = programme,
            Call::Stretch(stretch) => stretch.programme = programme,
            _ => (),
        }
        call
    }

    /// The same call with one block less, each block in turn.
    fn smaller(&self) -> Vec<Call> {
        let Some((programme, layout)) = self
            .programme()
            .and_then(|sheet| Some((sheet, Layout::of(sheet)?)))
        else {
            return Vec::new();
        };
        (0..layout.blocks)
            .map(|block| self.with_programme(layout.without(programme, block)))
            .collect()
    }
}

pub fn hex(bytes: &[u8]) -> String {
    bytes.iter().map(|byte| format!("{byte:02X}")).collect()
}
