//! Calls on which the runners differ, in words.

use std::fmt::{self, Display, Formatter};

use super::{hex, Call, Lent, Runners, Seen};

/// A call on which the two runners differ, or one of them goes against the
/// documents.
#[derive(Debug, Clone)]
pub struct Difference {
    pub(super) call: Call,
    pub(super) runners: Runners,
    pub(super) proved: Seen,
    pub(super) second: Seen,
    pub(super) fault: Option<String>,
}

impl Difference {
    /// What is wrong by itself in what a runner left.
    #[cfg(test)]
    pub fn fault(&self) -> Option<&str> {
        self.fault.as_deref()
    }

    /// The same difference, or another, with as few blocks as still show one.
    pub fn shrunk(self) -> Difference {
        let smaller = self.call.smaller();
        let again = |call: &Call| call.compare_to(self.runners).err();
        match smaller.iter().find_map(again) {
            Some(difference) => difference.shrunk(),
            None => self,
        }
    }
}

impl Display for Difference {
    fn fmt(&self, out: &mut Formatter) -> fmt::Result {
        if self.proved != self.second {
            writeln!(out, "the runners differ:")?;
        }
        if let Some(fault) = &self.fault {
            writeln!(out, "{fault}:")?;
        }
        write!(out, "{}", self.call)?;
        writeln!(out, "proved runner: {}", self.proved)?;
        write!(out, "second runner: {}", self.second)
    }
}

impl Display for Call {
    fn fmt(&self, out: &mut Formatter) -> fmt::Result {
        match self {
            Call::CheckStore { sheet } => writeln!(out, "check of the store {}", hex(sheet)),
            Call::CheckTable { sheet } => writeln!(out, "check of the table {}", hex(sheet)),
            Call::CheckProgramme {
                sheet,
                principals,
                slots,
            } => {
                writeln!(out, "check of the programme {}", hex(sheet))?;
                writeln!(out, "for {principals} principals and {slots} slots")
            }
            Call::Run(run) => {
                writeln!(out, "run over the store {}", hex(&run.store))?;
                writeln!(out, "of the programme {}", hex(&run.programme))?;
                let (rule, budget, length) = (run.rule, run.budget, run.output_length);
                let entries = run.journal_length;
                writeln!(
                    out,
                    "rule {rule}, budget {budget}, output of {length} bytes, {entries} entries"
                )
            }
            Call::Stretch(stretch) => write!(out, "{stretch}"),
        }
    }
}

impl Display for Seen {
    fn fmt(&self, out: &mut Formatter) -> fmt::Result {
        let (answer, margin) = (self.answer, Lent::MARGIN);
        let bytes = hex(&self.output.bytes);
        write!(
            out,
            "{answer}, output and {margin} bytes on either side {bytes}, {}",
            self.journal
        )?;
        match self.pause.lent() {
            [] => Ok(()),
            _ => write!(out, ", pause buffer likewise {}", hex(&self.pause.bytes)),
        }
    }
}
