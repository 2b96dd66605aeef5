//! The tokens of a text.

use crate::place::Place;
use crate::word::Word;

#[derive(Debug, Clone, Copy, PartialEq, Eq)]
pub enum Kind<'t> {
    Name(&'t str),
    Word(Word),
    /// A number of decimal digits; one of too many is the greatest.
    Number(u64),
    Sign(&'static str),
    /// A sign that there is not, such as `>`. That is told already.
    Wrong,
    /// Nothing more: the next statement starts with this word, or the text ends.
    End(Option<Word>),
}

#[derive(Debug, Clone, Copy)]
pub struct Token<'t> {
    pub kind: Kind<'t>,
    /// Its bytes in the text.
    pub text: &'t str,
    /// The offset of the first of them.
    pub at: usize,
    pub place: Place,
    /// The place right after it.
    pub after: Place,
}

impl Token<'_> {
    pub fn is(&self, sign: &str) -> bool {
        matches!(self.kind, Kind::Sign(own) if own == sign)
    }

    pub fn is_word(&self, word: Word) -> bool {
        self.kind == Kind::Word(word)
    }

    pub fn starts_statement(&self) -> bool {
        matches!(self.kind, Kind::Word(word) if word.starts_statement())
    }

    /// Whether a command may start so.
    pub fn starts_command(&self) -> bool {
        match self.kind {
            Kind::Name(_) => true,
            Kind::Word(word) => [Word::Skip, Word::If, Word::While].contains(&word),
            Kind::Sign(sign) => ["[", "{"].contains(&sign),
            _ => false,
        }
    }

    /// What a message calls it.
    pub fn shown(&self) -> String {
        match self.kind {
            Kind::End(None) => "the end of the text".to_string(),
            Kind::End(Some(word)) => format!("`{word}`"),
            _ => quoted(self.text),
        }
    }
}

/// A piece of a text, cut off where it is long.
pub fn cut(text: &str) -> String {
    const MOST: usize = 40;
    match text.char_indices().nth(MOST) {
        Some((end, _)) => format!("{}..", &text[..end]),
        None => text.to_string(),
    }
}

/// The same between backquotes.
pub fn quoted(text: &str) -> String {
    format!("`{}`", cut(text))
}

/// The place of the token that starts at this offset.
pub fn place_at(tokens: &[Token], at: usize) -> Place {
    match tokens.binary_search_by_key(&at, |token| token.at) {
        Ok(found) => tokens[found].place,
        Err(_) => Place::START,
    }
}
