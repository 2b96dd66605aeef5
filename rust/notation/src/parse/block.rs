//! Blocks: their first line and their command.

use model::{Block, Code, Floor};

use super::{Parsed, Parser};
use crate::error::Told;
use crate::scope::{Name, Sort};
use crate::token::{cut, quoted, Kind};
use crate::word::Word;
use crate::NO_FLOOR;

/// A block and its own name, if it has one.
pub struct BlockLine<'t> {
    pub name: Option<Name<'t>>,
    pub block: Block,
}

struct Head<'t> {
    name: Option<Name<'t>>,
    region: u8,
    floor: Floor,
}

impl<'t> Parser<'_, 't> {
    /// `block [NAME :] REGION .. { .. }`, from behind its word.
    pub fn block(&mut self) -> Parsed<BlockLine<'t>> {
        let head = self.head();
        // What is in the braces is read however it stands with the head.
        while head.is_err() && !self.cursor.peek().is("{") {
            if self.cursor.is_at_end() {
                return Err(Told);
            }
            self.cursor.take();
        }
        let command = self.body()?;
        self.nothing_more();
        let head = head?;
        let block = Block {
            region: head.region,
            floor: head.floor,
            code: Code::Command(command),
        };
        let name = head.name;
        Ok(BlockLine { name, block })
    }

    fn head(&mut self) -> Parsed<Head<'t>> {
        let first = self.name("the block's region (a principal)")?;
        let is_first_joined = self.hyphen(first);
        let (name, region, is_joined) = match self.cursor.take_sign(":") {
            None => (None, first, is_first_joined),
            Some(_) => {
                let region = self.name("the block's region (a principal) after `:`")?;
                let name = Some(first).filter(|_| !is_first_joined);
                (name, region, self.hyphen(region))
            }
        };
        let region_byte = match is_joined {
            true => 0,
            false => self.region(name, region),
        };
        let floor = self.floor()?;
        if !self.cursor.peek().is("{") {
            return Err(self.expected("`{`"));
        }
        Ok(Head {
            name,
            region: region_byte,
            floor,
        })
    }

    /// The byte of a region. A block's own name that is another principal's is told.
    fn region(&mut self, name: Option<Name>, region: Name) -> u8 {
        let other = name.filter(|name| name.text != region.text);
        let other = other.filter(|name| self.is_principal(name.text));
        let Some(name) = other else {
            return self.scope.byte(Sort::Principal, region, self.errors);
        };
        let (region_shown, name_shown) = (quoted(region.text), quoted(name.text));
        if self.is_principal(region.text) {
            let message = format!(
                "a block of {region_shown} can't be called {name_shown}, which is another principal"
            );
            self.tell(name.place, message);
        } else if !self.scope.principals.incomplete {
            let meant = format!("block {} : {}", cut(region.text), cut(name.text));
            let message = format!("there is no principal {region_shown}: did you mean `{meant}`?");
            self.tell(region.place, message);
        }
        self.scope
            .number(Sort::Principal, region.text)
            .map_or(0, |number| u8::try_from(number).unwrap_or(u8::MAX))
    }

    fn is_principal(&self, name: &str) -> bool {
        self.scope.number(Sort::Principal, name).is_some()
    }

    /// `endorsed down to FLOOR`, `ignored BYTE`, or nothing.
    fn floor(&mut self) -> Parsed<Floor> {
        if self.cursor.take_word(Word::Endorsed).is_some() {
            for word in [Word::Down, Word::To] {
                if self.cursor.take_word(word).is_none() {
                    return Err(self.expected("`down to` and the floor (a principal)"));
                }
            }
            let floor = self.named(Sort::Principal, "the floor (a principal)")?;
            let token = self.cursor.peek();
            if token.is_word(Word::Ignored) {
                let message = "the floor of an endorsed block is not ignored: it has one";
                return Err(self.tell(token.place, message));
            }
            return Ok(Floor::DownTo(floor));
        }
        match self.cursor.take_word(Word::Ignored) {
            None => Ok(Floor::Ignored(NO_FLOOR)),
            Some(_) => self.ignored(),
        }
    }

    fn ignored(&mut self) -> Parsed<Floor> {
        let token = self.cursor.peek();
        let Kind::Number(number) = token.kind else {
            return Err(self.expected("the floor byte (a number)"));
        };
        self.cursor.take();
        match u8::try_from(number) {
            Ok(byte) => Ok(Floor::Ignored(byte)),
            Err(_) => {
                let message = format!("a floor byte is from 0 to {}", u8::MAX);
                Err(self.tell(token.place, message))
            }
        }
    }
}
