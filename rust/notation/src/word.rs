//! The reserved words.

use std::fmt::{self, Display, Formatter};

/// A word that is no name.
#[derive(Debug, Clone, Copy, PartialEq, Eq)]
pub enum Word {
    Principals,
    Slot,
    Block,
    No,
    Blocks,
    Endorsed,
    Down,
    To,
    Ignored,
    Skip,
    If,
    Else,
    While,
    Read,
    Write,
    True,
    False,
}

impl Word {
    const ALL: [(Word, &str); 17] = [
        (Word::Principals, "principals"),
        (Word::Slot, "slot"),
        (Word::Block, "block"),
        (Word::No, "no"),
        (Word::Blocks, "blocks"),
        (Word::Endorsed, "endorsed"),
        (Word::Down, "down"),
        (Word::To, "to"),
        (Word::Ignored, "ignored"),
        (Word::Skip, "skip"),
        (Word::If, "if"),
        (Word::Else, "else"),
        (Word::While, "while"),
        (Word::Read, "read"),
        (Word::Write, "write"),
        (Word::True, "true"),
        (Word::False, "false"),
    ];

    /// Those that a statement starts with. They stand nowhere else.
    pub const STATEMENTS: [Word; 4] = [Word::Principals, Word::Slot, Word::Block, Word::No];

    /// The reserved word that is written so, if one is.
    pub fn from_text(text: &str) -> Option<Word> {
        let mut all = Word::ALL.into_iter();
        all.find(|(_, written)| *written == text)
            .map(|(word, _)| word)
    }

    pub fn text(self) -> &'static str {
        let mut all = Word::ALL.into_iter();
        all.find(|(word, _)| *word == self)
            .map_or("", |(_, text)| text)
    }

    pub fn starts_statement(self) -> bool {
        Word::STATEMENTS.contains(&self)
    }
}

impl Display for Word {
    fn fmt(&self, out: &mut Formatter) -> fmt::Result {
        out.write_str(self.text())
    }
}
