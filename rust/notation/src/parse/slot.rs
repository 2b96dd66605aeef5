//! Slot lines, and values.

use muntyzhap::{Integer, Value};

use super::{Parsed, Parser};
use crate::error::Told;
use crate::place::Place;
use crate::scope::Sort;
use crate::token::{cut, Kind};
use crate::word::Word;

/// A slot as its line has it.
pub struct SlotLine {
    pub owner: u8,
    /// None where the line has none.
    pub value: Option<Value>,
}

impl Parser<'_, '_> {
    /// `slot NAME : OWNER = VALUE`, from behind the name.
    pub fn slot_line(&mut self, name: &str) -> Parsed<SlotLine> {
        if self.cursor.take_sign(":").is_none() {
            let name = cut(name);
            let what = format!("`:` and an owner (as in `slot {name} : OWNER = 0`)");
            return Err(self.expected(&what));
        }
        let owner = self.named(Sort::Principal, "the slot's owner (a principal)")?;
        let value = match self.equals() {
            true => Some(self.opening_value()?),
            false => None,
        };
        self.nothing_more();
        Ok(SlotLine { owner, value })
    }

    /// The sign before an opening value, or one that was meant for it.
    fn equals(&mut self) -> bool {
        let token = self.cursor.peek();
        let is_sign = ["=", ":=", "=="].iter().any(|sign| token.is(sign));
        if is_sign && !token.is("=") {
            let message = format!(
                "the opening value of a slot comes after `=`, not {}",
                token.shown()
            );
            self.tell(token.place, message);
        }
        if is_sign {
            self.cursor.take();
        }
        is_sign
    }

    fn opening_value(&mut self) -> Parsed<Value> {
        let Some(value) = self.value() else {
            return Err(self.expected(
                "an opening value (a number, `true`, `false`, `read SLOT` or `write SLOT`)",
            ));
        };
        let value = value?;
        let token = self.cursor.peek();
        match token.kind {
            Kind::Sign("+" | "-" | "<" | "==") => {
                let message = "an opening value is not computed: write one value alone";
                Err(self.tell(token.place, message))
            }
            _ => Ok(value),
        }
    }

    /// A value, if one stands here. It is a literal's, or an opening value.
    pub fn value(&mut self) -> Option<Parsed<Value>> {
        let token = self.cursor.peek();
        match token.kind {
            Kind::Number(_) => Some(self.integer(token.place, false)),
            Kind::Sign("-") if matches!(self.cursor.ahead(1).kind, Kind::Number(_)) => {
                self.cursor.take();
                Some(self.integer(token.place, true))
            }
            Kind::Word(Word::True | Word::False) => {
                self.cursor.take();
                Some(Ok(Value::Truth(token.is_word(Word::True))))
            }
            Kind::Word(word @ (Word::Read | Word::Write)) => {
                self.cursor.take();
                Some(self.view(word))
            }
            _ => self.other_truth().map(Ok),
        }
    }

    fn integer(&mut self, place: Place, is_negative: bool) -> Parsed<Value> {
        let Kind::Number(size) = self.cursor.take().kind else {
            return Err(Told);
        };
        let size = i128::from(size);
        let number = if is_negative { -size } else { size };
        match Integer::try_from(number) {
            Ok(integer) => Ok(Value::Integer(integer)),
            Err(_) => {
                let (least, most) = (Integer::MIN, Integer::MAX);
                self.tell(place, format!("an integer is from {least} to {most}"));
                Ok(Value::Integer(0))
            }
        }
    }

    /// The view that follows the word for it.
    fn view(&mut self, word: Word) -> Parsed<Value> {
        let token = self.cursor.peek();
        if token.is("[") || token.is("(") {
            let message = format!(
                "`{word}` is followed by a slot's name; what an expression views is read by `[..]`"
            );
            return Err(self.tell(token.place, message));
        }
        let slot = self.named(Sort::Slot, &format!("a slot's name after `{word}`"))?;
        Ok(match word {
            Word::Write => Value::WriteView(slot),
            _ => Value::ReadView(slot),
        })
    }
}
