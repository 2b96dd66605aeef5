//! Standard output and standard error. All that the command writes to them goes
//! through here, so that a full disk or a closed pipe is told by the exit status.

use std::io::{self, BufWriter, Stderr, Stdout, Write};

use crate::ending::Failure;

pub struct Streams {
    out: BufWriter<Stdout>,
    error: BufWriter<Stderr>,
    /// Why nothing more is written to standard error.
    lost: Option<Failure>,
}

const OUT: &str = "standard output";
const ERROR: &str = "standard error";

impl Streams {
    pub fn new() -> Streams {
        Streams {
            out: BufWriter::new(io::stdout()),
            error: BufWriter::new(io::stderr()),
            lost: None,
        }
    }

    /// Writes a text to standard output.
    pub fn say(&mut self, text: &str) -> Result<(), Failure> {
        self.bytes(text.as_bytes())
    }

    /// Writes bytes to standard output.
    pub fn bytes(&mut self, bytes: &[u8]) -> Result<(), Failure> {
        told(self.out.write_all(bytes), OUT)
    }

    /// Writes a line to standard error, at once. Where that fails nothing more is
    /// written there, and the command goes on: such a line is no reason to lose a
    /// run. [The last flush](Streams::flush) tells it.
    pub fn note(&mut self, line: &str) {
        self.trace(line);
        self.on_error(|error| error.flush());
    }

    /// The same, some time before the end.
    pub fn trace(&mut self, line: &str) {
        self.on_error(|error| writeln!(error, "{line}"));
    }

    /// Whether what is noted or traced is still written.
    pub fn notes(&self) -> bool {
        self.lost.is_none()
    }

    fn on_error(&mut self, write: impl FnOnce(&mut BufWriter<Stderr>) -> io::Result<()>) {
        if self.notes() {
            self.lost = told(write(&mut self.error), ERROR).err();
        }
    }

    /// Writes all that waits, to each stream whatever became of the other.
    pub fn flush(&mut self) -> Result<(), Failure> {
        self.on_error(|error| error.flush());
        told(self.out.flush(), OUT)?;
        self.lost.clone().map_or(Ok(()), Err)
    }

    /// Writes why a command failed, where anybody reads it.
    pub fn last(&mut self, failure: &Failure) {
        let told = match failure {
            Failure::Told(words) => writeln!(self.error, "muntyzhap: {words}"),
            Failure::Text(errors) => writeln!(self.error, "{errors}"),
            Failure::Closed => Ok(()),
        };
        // The exit status says it too.
        let _ = told.and_then(|()| self.error.flush());
    }
}

fn told(written: io::Result<()>, stream: &str) -> Result<(), Failure> {
    written.map_err(|error| match error.kind() {
        io::ErrorKind::BrokenPipe => Failure::Closed,
        _ => Failure::of(stream, &error),
    })
}
