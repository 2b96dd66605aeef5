//! From tokens to what they say.

mod block;
mod command;
mod expression;
mod foreign;
mod slot;

use model::suggestion;

use crate::cursor::Cursor;
use crate::error::{Errors, Told};
use crate::misspelt::STATEMENT;
use crate::place::Place;
use crate::scope::{Name, Scope, Sort};
use crate::token::{quoted, Kind};
use crate::word::Word;

pub use block::BlockLine;
pub use slot::SlotLine;

pub type Parsed<T> = Result<T, Told>;

/// How deep braces may stand in braces, and parentheses and brackets in each
/// other, so that the stack holds them. Those that code needs are far fewer.
pub const MOST_OPEN: usize = 128;

/// The reading of one statement.
pub struct Parser<'a, 't> {
    pub cursor: Cursor<'a, 't>,
    pub scope: &'a Scope,
    pub errors: &'a mut Errors,
    /// How many braces, and how many parentheses and brackets, are open.
    braces: usize,
    brackets: usize,
}

impl<'a, 't> Parser<'a, 't> {
    pub fn new(cursor: Cursor<'a, 't>, scope: &'a Scope, errors: &'a mut Errors) -> Parser<'a, 't> {
        Parser {
            cursor,
            scope,
            errors,
            braces: 0,
            brackets: 0,
        }
    }

    pub fn tell(&mut self, place: Place, message: impl Into<String>) -> Told {
        self.errors.add(place, message);
        Told
    }

    /// That something else is needed where the next token stands.
    pub fn expected(&mut self, what: &str) -> Told {
        let found = self.cursor.peek();
        let shown = found.shown();
        let message = match found.kind {
            Kind::End(_) => format!("expected {what} before {shown}"),
            Kind::Word(_) => format!("expected {what}, found the word {shown}"),
            // Told already.
            Kind::Wrong => return Told,
            _ => format!("expected {what}, found {shown}"),
        };
        self.tell(found.place, message)
    }

    pub fn name(&mut self, what: &str) -> Parsed<Name<'t>> {
        let token = self.cursor.peek();
        match token.kind {
            Kind::Name(text) => {
                self.cursor.take();
                let place = token.place;
                Ok(Name { text, place })
            }
            Kind::Word(word) => {
                let message = format!("expected {what}; `{word}` is a reserved word and no name");
                Err(self.tell(token.place, message))
            }
            _ => Err(self.expected(what)),
        }
    }

    /// The byte of the principal or slot that is named next.
    pub fn named(&mut self, sort: Sort, what: &str) -> Parsed<u8> {
        let name = self.name(what)?;
        Ok(match sort == Sort::Principal && self.hyphen(name) {
            true => 0,
            false => self.scope.byte(sort, name, self.errors),
        })
    }

    /// Whether a `-` joins something to the name that was taken last. That is told,
    /// and passed over.
    pub fn hyphen(&mut self, name: Name) -> bool {
        let place = self.cursor.peek().place;
        let mut meant = name.text.to_string();
        while self.cursor.is_joined() {
            self.cursor.take();
            meant = format!("{meant}_{}", self.cursor.take().text);
        }
        let is_joined = meant != name.text;
        if is_joined {
            let meant = quoted(&meant);
            let message = format!("a name has letters, digits and `_`, and no `-`: write {meant}");
            self.tell(place, message);
        }
        is_joined
    }

    /// What follows a whole statement: the next one, and nothing between.
    pub fn nothing_more(&mut self) {
        let token = self.cursor.peek();
        let message = match token.kind {
            Kind::End(_) => return,
            Kind::Sign("}") => "this `}` closes nothing".to_string(),
            Kind::Sign(";") => "no `;` is needed here: it stands between commands".to_string(),
            Kind::Name(_) if self.cursor.ahead(1).is(":=") => {
                "a command stands in the braces of a block, as in `block REGION { .. }`".to_string()
            }
            Kind::Name(name) => {
                let words = Word::STATEMENTS.map(Word::text);
                let suggestion = suggestion(name, words).map(|meant| format!(": {meant}"));
                let shown = token.shown();
                format!(
                    "{STATEMENT}, found {shown}{}",
                    suggestion.unwrap_or_default()
                )
            }
            _ => {
                self.expected("`principals`, `slot`, `block` or `no blocks`");
                return;
            }
        };
        self.tell(token.place, message);
    }
}
