//! What the names in a text stand for.

use std::collections::HashMap;

use model::{suggestion, Names};
use muntyzhap::sheet::{MOST_PRINCIPALS, MOST_SLOTS};

use crate::error::Errors;
use crate::place::Place;
use crate::token::{cut, quoted};
use crate::word::Word;

/// A name and where it stands.
#[derive(Debug, Clone, Copy)]
pub struct Name<'t> {
    pub text: &'t str,
    pub place: Place,
}

/// What a name is of.
#[derive(Debug, Clone, Copy, PartialEq, Eq)]
pub enum Sort {
    Principal,
    Slot,
}

impl Sort {
    pub fn most(self) -> usize {
        match self {
            Sort::Principal => MOST_PRINCIPALS,
            Sort::Slot => MOST_SLOTS,
        }
    }

    fn word(self) -> &'static str {
        match self {
            Sort::Principal => "principal",
            Sort::Slot => "slot",
        }
    }

    /// The word of the lines that declare it.
    fn line(self) -> Word {
        match self {
            Sort::Principal => Word::Principals,
            Sort::Slot => Word::Slot,
        }
    }

    fn letter(self) -> char {
        match self {
            Sort::Principal => Names::PRINCIPAL,
            Sort::Slot => Names::SLOT,
        }
    }

    fn other(self) -> Sort {
        match self {
            Sort::Principal => Sort::Slot,
            Sort::Slot => Sort::Principal,
        }
    }
}

/// The names of one sort, by number, with the places where they are declared.
#[derive(Default)]
pub struct Declared {
    pub names: Vec<String>,
    pub places: Vec<Place>,
    numbers: HashMap<String, usize>,
    /// Something that may declare others could not be read, so that a name that
    /// is missing is no error.
    pub incomplete: bool,
}

impl Declared {
    /// The number of this name: the next one, unless it is declared already.
    pub fn declare(&mut self, name: Name) -> usize {
        let next = self.names.len();
        let number = *self.numbers.entry(name.text.to_string()).or_insert(next);
        if number == next {
            self.names.push(name.text.to_string());
            self.places.push(name.place);
        }
        number
    }

    pub fn number(&self, name: &str) -> Option<usize> {
        self.numbers.get(name).copied()
    }
}

/// All names of a text but those of blocks.
#[derive(Default)]
pub struct Scope {
    pub principals: Declared,
    pub slots: Declared,
    /// Nothing is declared: names are `p0` and `s0` and so on.
    pub numbered: bool,
}

impl Scope {
    pub fn of(&self, sort: Sort) -> &Declared {
        match sort {
            Sort::Principal => &self.principals,
            Sort::Slot => &self.slots,
        }
    }

    /// The number that this name stands for, if it stands for one.
    pub fn number(&self, sort: Sort, name: &str) -> Option<usize> {
        match self.numbered {
            false => self.of(sort).number(name),
            true => {
                let digits = name.strip_prefix(sort.letter())?;
                let number = digits.parse().ok()?;
                let is_plain = digits == format!("{number}");
                (is_plain && number < sort.most()).then_some(number)
            }
        }
    }

    /// The byte of this name, or 0 where it stands for nothing, which is told.
    pub fn byte(&self, sort: Sort, name: Name, errors: &mut Errors) -> u8 {
        match self.number(sort, name.text) {
            // Names past the limit have their own error.
            Some(number) => u8::try_from(number).unwrap_or(u8::MAX),
            None => {
                let known = !self.of(sort).incomplete;
                if known && errors.is_first(sort.word(), name.text) {
                    let message = self.missing(sort, name.text, errors.are_many());
                    errors.add(name.place, message);
                }
                0
            }
        }
    }

    /// That there is no such name, and what to do. Names that are close are looked
    /// for unless there are many errors.
    fn missing(&self, sort: Sort, name: &str, are_many: bool) -> String {
        let (word, other) = (sort.word(), sort.other());
        let shown = quoted(name);
        if self.number(other, name).is_some() {
            return format!("{shown} is a {}, and a {word} is needed here", other.word());
        }
        let missing = format!("there is no {word} {shown}");
        if self.numbered {
            let (letter, last) = (sort.letter(), sort.most() - 1);
            return format!(
                "{missing}: declare it in a `{}` line (in a text without `principals` lines {word}s are called \
                 {letter}0 to {letter}{last})",
                sort.line()
            );
        }
        let most = if are_many { 0 } else { sort.most() };
        let names = self.of(sort).names.iter().take(most);
        let names = names.map(String::as_str);
        if let Some(suggestion) = suggestion(name, names) {
            return format!("{missing}: {suggestion}");
        }
        match sort {
            Sort::Principal => format!("{missing}: name it in a `principals` line"),
            Sort::Slot => format!(
                "{missing}: declare it, as in `slot {} : OWNER = 0`",
                cut(name)
            ),
        }
    }
}
