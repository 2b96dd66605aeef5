//! Stretches of a run: a call that starts one, or carries one on.

use std::fmt::{self, Display, Formatter};

use super::{hex, Lent, Seen};
use crate::answers::Answer;
use crate::checkpoints::{fault_of, Checkpoint, Left};
use crate::journals::Journal;
use crate::second;

/// One stretch of a run (document 02, N8).
#[derive(Debug, Clone)]
pub struct Stretch {
    pub store: Vec<u8>,
    pub programme: Vec<u8>,
    pub rule: u32,
    pub budget: u32,
    /// What it carries on from; none at the start.
    pub old: Option<Checkpoint>,
    pub output_length: usize,
    pub pause_length: usize,
}

/// A way to play a stretch, with the output and the pause buffer that are lent.
pub type StretchRunner = fn(&Stretch, &mut [u8], &mut [u8]) -> Answer;

impl Stretch {
    pub fn by(&self, runner: StretchRunner) -> Seen {
        let mut output = Lent::new(self.output_length);
        let mut pause = Lent::new(self.pause_length);
        let answer = runner(self, output.lend(), pause.lend());
        Seen {
            answer,
            output,
            journal: Journal::none(),
            pause,
        }
    }

    pub fn second(&self) -> Seen {
        self.by(second::stretch)
    }

    /// What goes against the documents in what this stretch left, in words.
    pub fn fault(&self, seen: &Seen) -> Option<String> {
        let left = Left {
            answer: seen.answer,
            output: written(&seen.output),
            pause: written(&seen.pause),
        };
        fault_of(self, &left).map(str::to_string)
    }

    /// The next stretch from there on, with this budget.
    pub fn next(&self, from: Checkpoint, budget: u32) -> Stretch {
        Stretch {
            budget,
            old: Some(from),
            ..self.clone()
        }
    }
}

/// What a buffer holds, if anything was written to it.
fn written(lent: &Lent) -> Option<&[u8]> {
    (!lent.is_untouched()).then(|| lent.lent())
}

impl Seen {
    /// The output and the pause sheet of a stretch that is spent.
    pub fn checkpoint(&self) -> Option<Checkpoint> {
        (self.answer.number == 17).then(|| Checkpoint {
            output: self.output().to_vec(),
            pause: self.pause.lent().to_vec(),
        })
    }
}

impl Display for Stretch {
    fn fmt(&self, out: &mut Formatter) -> fmt::Result {
        let first = match &self.old {
            None => "start",
            Some(_) => "carrying on",
        };
        writeln!(out, "{first} over the store {}", hex(&self.store))?;
        writeln!(out, "of the programme {}", hex(&self.programme))?;
        if let Some(Checkpoint { output, pause }) = &self.old {
            writeln!(out, "from the output {}", hex(output))?;
            writeln!(out, "and the pause sheet {}", hex(pause))?;
        }
        let (rule, budget) = (self.rule, self.budget);
        let (output, pause) = (self.output_length, self.pause_length);
        writeln!(
            out,
            "rule {rule}, budget {budget}, output of {output} bytes, pause buffer of {pause}"
        )
    }
}
