//! The statements of a text.

use crate::cursor::Cursor;
use crate::token::{Kind, Token};
use crate::word::Word;

/// The tokens of a statement, from its word to the next one's. What stands before
/// the first has no word.
pub struct Statement<'s, 't> {
    pub word: Option<Word>,
    pub tokens: &'s [Token<'t>],
    /// The word of the next statement, if there is one.
    then: Option<Word>,
}

impl<'s, 't> Statement<'s, 't> {
    pub fn cursor(&self) -> Cursor<'s, 't> {
        Cursor::new(self.tokens, self.then)
    }
}

/// All statements, in order. The words that they start with stand nowhere else, so
/// an error in one does not reach the next.
pub fn split<'s, 't>(tokens: &'s [Token<'t>]) -> Vec<Statement<'s, 't>> {
    let mut statements = vec![];
    let mut rest = tokens;
    while let Some((first, others)) = rest.split_first() {
        let next = others.iter().position(Token::starts_statement);
        let (own, after) = rest.split_at(next.map_or(rest.len(), |next| next + 1));
        statements.push(Statement {
            word: word(first).filter(|word| word.starts_statement()),
            tokens: own,
            then: after.first().and_then(word),
        });
        rest = after;
    }
    statements
}

fn word(token: &Token) -> Option<Word> {
    match token.kind {
        Kind::Word(word) => Some(word),
        _ => None,
    }
}
