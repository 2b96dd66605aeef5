//! Where things stand in a text.

use std::collections::BTreeMap;
use std::fmt::{self, Display, Formatter};

/// A place in a text: line and column, both from 1, the column in characters.
#[derive(Debug, Clone, Copy, PartialEq, Eq, PartialOrd, Ord, Hash)]
pub struct Place {
    pub line: usize,
    pub column: usize,
}

impl Place {
    pub(crate) const START: Place = Place { line: 1, column: 1 };
}

/// `LINE:COLUMN`.
impl Display for Place {
    fn fmt(&self, out: &mut Formatter) -> fmt::Result {
        write!(out, "{}:{}", self.line, self.column)
    }
}

/// Where the parts of an assembled text stand in it. What the text does not
/// declare has no place: in a text without a `principals` line no principal and no
/// slot has one.
#[derive(Debug, Clone, PartialEq, Eq, Default)]
pub struct Places {
    pub(crate) principals: Vec<Place>,
    pub(crate) slots: Vec<Place>,
    pub(crate) blocks: Vec<Place>,
    /// Of each block, by offset in its code.
    pub(crate) commands: Vec<BTreeMap<usize, Place>>,
}

impl Places {
    /// Where the command stands whose first byte is at this offset of the block's
    /// code. An else-part that is left out has the place of its `if`.
    pub fn command(&self, block: usize, offset: usize) -> Option<Place> {
        self.commands.get(block)?.get(&offset).copied()
    }

    /// Where the word `block` of this block stands.
    pub fn block(&self, block: usize) -> Option<Place> {
        self.blocks.get(block).copied()
    }

    /// Where the slot's name stands in its line.
    pub fn slot(&self, slot: usize) -> Option<Place> {
        self.slots.get(slot).copied()
    }

    /// Where the principal is first named in a `principals` line.
    pub fn principal(&self, principal: usize) -> Option<Place> {
        self.principals.get(principal).copied()
    }
}
