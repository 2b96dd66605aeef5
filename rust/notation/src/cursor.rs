//! A statement's tokens, one after the other.

use crate::place::Place;
use crate::token::{Kind, Token};
use crate::word::Word;

pub struct Cursor<'s, 't> {
    tokens: &'s [Token<'t>],
    next: usize,
    /// What stands after the last one.
    end: Token<'t>,
}

impl<'s, 't> Cursor<'s, 't> {
    /// From the first of these tokens, of which there is at least one. After them
    /// comes a statement with this word, or the text ends.
    pub fn new(tokens: &'s [Token<'t>], then: Option<Word>) -> Cursor<'s, 't> {
        let (at, place) = match tokens.last() {
            Some(last) => (last.at, last.after),
            None => (0, Place::START),
        };
        let end = Token {
            kind: Kind::End(then),
            text: "",
            at,
            place,
            after: place,
        };
        let next = 0;
        Cursor { tokens, next, end }
    }

    pub fn peek(&self) -> Token<'t> {
        self.ahead(0)
    }

    /// The token so many after the next.
    pub fn ahead(&self, count: usize) -> Token<'t> {
        let token = self.tokens.get(self.next + count);
        token.copied().unwrap_or(self.end)
    }

    pub fn take(&mut self) -> Token<'t> {
        let token = self.peek();
        self.next = (self.next + 1).min(self.tokens.len());
        token
    }

    /// The next token, if it is this sign.
    pub fn take_sign(&mut self, sign: &str) -> Option<Token<'t>> {
        self.peek().is(sign).then(|| self.take())
    }

    /// The next token, if it is this word.
    pub fn take_word(&mut self, word: Word) -> Option<Token<'t>> {
        self.peek().is_word(word).then(|| self.take())
    }

    /// Whether a `-` is next that stands close between what was taken last and a name
    /// or number.
    pub fn is_joined(&self) -> bool {
        let (sign, next) = (self.peek(), self.ahead(1));
        let is_part = matches!(next.kind, Kind::Name(_) | Kind::Number(_) | Kind::Word(_));
        sign.is("-") && is_part && self.after() == sign.place && sign.after == next.place
    }

    pub fn is_at_end(&self) -> bool {
        matches!(self.peek().kind, Kind::End(_))
    }

    /// The place right after the token that was taken last.
    pub fn after(&self) -> Place {
        match self.next.checked_sub(1) {
            Some(last) => self.tokens[last].after,
            None => self.peek().place,
        }
    }
}
