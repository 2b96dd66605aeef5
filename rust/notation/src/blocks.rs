//! The blocks of a text.

use std::collections::HashMap;

use model::{Block, Code, Programme};
use muntyzhap::sheet::MOST_BLOCKS;

use crate::error::Errors;
use crate::limits::{judge_code, judge_depth};
use crate::parse::{BlockLine, Parser};
use crate::place::Place;
use crate::reading::of;
use crate::scope::{Name, Scope};
use crate::statement::Statement;
use crate::token::{quoted, Token};
use crate::word::Word;

/// Blocks by number; those that could not be read are left out.
#[derive(Default)]
pub struct Blocks {
    blocks: Vec<Block>,
    pub names: Vec<Option<String>>,
    pub places: Vec<Place>,
}

impl Blocks {
    pub fn read(
        tokens: &[Token],
        statements: &[Statement],
        scope: &Scope,
        errors: &mut Errors,
    ) -> Blocks {
        let mut blocks = Blocks::default();
        let mut named = HashMap::new();
        for (number, statement) in of(statements, Word::Block).enumerate() {
            let place = statement.tokens[0].place;
            if number == MOST_BLOCKS {
                let message =
                    format!("a programme has at most {MOST_BLOCKS} blocks, and this is one more");
                errors.add(place, message);
            }
            let mut parser = Parser::new(statement.cursor(), scope, errors);
            parser.cursor.take();
            let Ok(BlockLine { name, block }) = parser.block() else {
                continue;
            };
            if let Some(name) = name {
                judge_name(name, &mut named, errors);
            }
            if let Code::Command(command) = &block.code {
                judge_depth(command, tokens, errors);
            }
            blocks.blocks.push(block);
            blocks.names.push(name.map(|name| name.text.to_string()));
            blocks.places.push(place);
        }
        judge_code(&blocks.blocks, tokens, errors);
        blocks
    }

    /// The programme, if the text has one: a block, or `no blocks`.
    pub fn programme(&self, statements: &[Statement], errors: &mut Errors) -> Option<Programme> {
        let first = of(statements, Word::Block).next();
        let mut has_none = false;
        for statement in of(statements, Word::No) {
            has_none = true;
            let scope = Scope::default();
            let mut parser = Parser::new(statement.cursor(), &scope, errors);
            parser.cursor.take();
            match parser.cursor.take_word(Word::Blocks) {
                Some(_) => parser.nothing_more(),
                None => {
                    parser.expected("`blocks` (as in `no blocks`)");
                }
            }
            if let Some(first) = first {
                let message = format!(
                    "`no blocks` is for a programme without any, and there is one at {}",
                    first.tokens[0].place
                );
                errors.add(statement.tokens[0].place, message);
            }
        }
        (first.is_some() || has_none).then(|| Programme {
            blocks: self.blocks.clone(),
        })
    }
}

/// No two blocks have the same name.
fn judge_name<'t>(name: Name<'t>, named: &mut HashMap<&'t str, Place>, errors: &mut Errors) {
    match named.get(name.text) {
        Some(first) => {
            let message = format!("there is a block {} already, at {first}", quoted(name.text));
            errors.add(name.place, message);
        }
        None => {
            named.insert(name.text, name.place);
        }
    }
}
