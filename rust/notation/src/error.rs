//! What is wrong with a text.

use std::collections::HashSet;
use std::fmt::{self, Display, Formatter};

use crate::place::Place;

/// An error of a text, and its place.
#[derive(Debug, Clone, PartialEq, Eq)]
pub struct Error {
    /// From 1.
    pub line: usize,
    /// From 1, in characters.
    pub column: usize,
    pub message: String,
    /// How many errors it stands for: 1, but for a last one that says how many more
    /// there are.
    pub number: usize,
}

/// `LINE:COLUMN: MESSAGE`.
impl Display for Error {
    fn fmt(&self, out: &mut Formatter) -> fmt::Result {
        write!(out, "{}:{}: {}", self.line, self.column, self.message)
    }
}

impl std::error::Error for Error {}

/// An error was told, and there is nothing to go on with.
#[derive(Debug)]
pub struct Told;

/// The errors of a text so far.
#[derive(Default)]
pub struct Errors {
    found: Vec<(Place, String)>,
    once: HashSet<(&'static str, String)>,
}

impl Errors {
    /// More are only counted.
    const MOST_TOLD: usize = 20;

    pub fn add(&mut self, place: Place, message: impl Into<String>) {
        self.found.push((place, message.into()));
    }

    /// Whether this is the first time that such a thing is wrong with this name:
    /// a name that there is not is told once.
    pub fn is_first(&mut self, sort: &'static str, name: &str) -> bool {
        self.once.insert((sort, name.to_string()))
    }

    pub fn are_none(&self) -> bool {
        self.found.is_empty()
    }

    /// Whether there are so many that more of them need not be told at length.
    pub fn are_many(&self) -> bool {
        self.found.len() > 5 * Errors::MOST_TOLD
    }

    /// All of them in order of place, of one place the first: what follows from
    /// an error is often found where it stands.
    pub fn told(mut self) -> Result<(), Vec<Error>> {
        self.found.sort_by_key(|(place, _)| *place);
        self.found.dedup_by_key(|(place, _)| *place);
        let more = self.found.len().saturating_sub(Errors::MOST_TOLD);
        let mut errors: Vec<Error> = self.found.into_iter().map(error).collect();
        errors.truncate(Errors::MOST_TOLD + 1);
        if let Some(last) = errors.get_mut(Errors::MOST_TOLD) {
            last.number = more;
            last.message = match more {
                1 => "and 1 more error here".to_string(),
                _ => format!("and {more} more errors from here on"),
            };
        }
        match errors.is_empty() {
            true => Ok(()),
            false => Err(errors),
        }
    }
}

fn error((place, message): (Place, String)) -> Error {
    Error {
        line: place.line,
        column: place.column,
        message,
        number: 1,
    }
}
