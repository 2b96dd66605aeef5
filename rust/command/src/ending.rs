//! How the command ends.

use std::io;

/// What was asked for was done, or it was answered by a refusal.
#[derive(Debug, Clone, Copy, PartialEq, Eq)]
pub enum Status {
    Done = 0,
    /// Refused or paused; of a text, that it has errors.
    Refused = 1,
}

/// Why nothing could be answered: usage, input or output, or two runners that
/// differ.
#[derive(Debug, Clone, PartialEq, Eq)]
pub enum Failure {
    /// Told on standard error.
    Told(String),
    /// The errors of a text, a line each. They are an answer to it.
    Text(String),
    /// Nobody reads standard output or standard error any more.
    Closed,
}

pub type Ended = Result<Status, Failure>;

impl Failure {
    /// The exit status of what failed.
    const FAILED: u8 = 2;

    pub fn status(&self) -> u8 {
        match self {
            Failure::Text(_) => Status::Refused as u8,
            Failure::Told(_) | Failure::Closed => Failure::FAILED,
        }
    }

    pub fn told(words: impl Into<String>) -> Failure {
        Failure::Told(words.into())
    }

    /// Of a wrong use of a command: what is wrong, and where its use is told.
    pub fn usage(command: &str, words: impl AsRef<str>) -> Failure {
        let words = words.as_ref();
        Failure::Told(format!(
            "{words}\n`muntyzhap help {command}` says how to use it"
        ))
    }

    /// Of a file or stream, in the system's words.
    pub fn of(name: &str, error: &io::Error) -> Failure {
        Failure::Told(format!("{name}: {}", system_words(error)))
    }
}

/// What the system says of an error, without its number there.
pub fn system_words(error: &io::Error) -> String {
    let words = error.to_string();
    match words.find(" (os error ") {
        Some(end) => words[..end].to_string(),
        None => words,
    }
}
