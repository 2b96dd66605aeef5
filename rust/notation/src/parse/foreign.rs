//! Words of other languages.

use muntyzhap::Value;

use super::Parser;
use crate::scope::Sort;
use crate::sign::{ELSE_IF, NESTED};
use crate::token::{Kind, Token};
use crate::word::Word;

impl Parser<'_, '_> {
    /// Whether the next token is this word, its letters large or small, and no slot.
    fn is_foreign(&self, word: &str) -> bool {
        let is_slot = |name| self.scope.number(Sort::Slot, name).is_some();
        let Kind::Name(name) = self.cursor.peek().kind else {
            return false;
        };
        name.eq_ignore_ascii_case(word) && !is_slot(name)
    }

    /// `True` and the like are told, and stand for what they mean.
    pub fn other_truth(&mut self) -> Option<Value> {
        let mut words = [(Word::True, true), (Word::False, false)].into_iter();
        let (word, truth) = words.find(|(word, _)| self.is_foreign(word.text()))?;
        let token = self.cursor.take();
        let message = format!("write `{word}`, not {}", token.shown());
        self.tell(token.place, message);
        Some(Value::Truth(truth))
    }

    /// Whether a `not` is next, with something after it. It is told, and passed over.
    pub fn not(&mut self) -> bool {
        let is_not = self.is_foreign("not") && starts_part(self.cursor.ahead(1));
        if is_not {
            let token = self.cursor.take();
            let shown = token.shown();
            let message = format!("there is no {shown}: write `(e) == false`");
            self.tell(token.place, message);
        }
        is_not
    }

    /// The same of an `and` or `or`.
    pub fn and_or(&mut self) -> bool {
        let mut words = [("and", NESTED), ("or", ELSE_IF)].into_iter();
        let found = words.find(|(word, _)| self.is_foreign(word));
        let Some((_, instead)) = found.filter(|_| starts_part(self.cursor.ahead(1))) else {
            return false;
        };
        let token = self.cursor.take();
        let message = format!("there is no {}: {instead}", token.shown());
        self.tell(token.place, message);
        true
    }
}

/// Whether part of an expression may start so.
fn starts_part(token: Token) -> bool {
    match token.kind {
        Kind::Name(_) | Kind::Number(_) | Kind::Wrong => true,
        Kind::Word(word) => [Word::True, Word::False, Word::Read, Word::Write].contains(&word),
        Kind::Sign(sign) => ["(", "[", "-"].contains(&sign),
        Kind::End(_) => false,
    }
}
