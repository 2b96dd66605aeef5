//! A text's statements put together: first what they declare, then slots and
//! blocks, which may name what comes later.

use model::{Names, Programme, Store};

use crate::blocks::Blocks;
use crate::error::Errors;
use crate::parse::Parser;
use crate::place::Place;
use crate::principals::Order;
use crate::scope::{Declared, Name, Scope};
use crate::slots::Slots;
use crate::statement::Statement;
use crate::token::{Kind, Token};
use crate::word::Word;
use crate::Tables;

/// What a text says.
pub struct Reading {
    pub store: Option<Store>,
    pub programme: Option<Programme>,
    pub tables: Option<Tables>,
    pub names: Names,
    pub principals: Vec<Place>,
    pub slots: Vec<Place>,
    pub blocks: Vec<Place>,
}

/// Reads statements. Where an error is told, what comes of it means nothing.
pub fn read(tokens: &[Token], statements: &[Statement], errors: &mut Errors) -> Reading {
    let mut order = Order::default();
    for statement in of(statements, Word::Principals) {
        order.add(statement, errors);
    }
    let masks = order.masks(errors).ok();
    let mut scope = scope(order.declared, statements, errors);
    let slots = Slots::read(statements, &scope, errors);
    scope.slots.incomplete |= slots.is_followed;
    let blocks = Blocks::read(tokens, statements, &scope, errors);
    let tables = masks.clone().zip(slots.owners());
    let tables = tables.map(|(masks, owners)| Tables { masks, owners });
    let store = masks.zip(slots.values(&scope, errors));
    let store = store.map(|(masks, slots)| Store { masks, slots });
    let programme = blocks.programme(statements, errors);
    if programme.is_none() && errors.are_none() {
        nothing(statements, &slots, errors);
    }
    Reading {
        store,
        programme,
        tables,
        names: Names {
            principals: scope.principals.names,
            slots: scope.slots.names,
            blocks: blocks.names,
        },
        principals: scope.principals.places,
        slots: scope.slots.places,
        blocks: blocks.places,
    }
}

/// The statements of this word.
pub fn of<'a, 's, 't>(
    statements: &'a [Statement<'s, 't>],
    word: Word,
) -> impl Iterator<Item = &'a Statement<'s, 't>> {
    let own = move |statement: &&Statement| statement.word == Some(word);
    statements.iter().filter(own)
}

/// All names but those of blocks.
fn scope(principals: Declared, statements: &[Statement], errors: &mut Errors) -> Scope {
    let has_principals = of(statements, Word::Principals).next().is_some();
    let has_slots = of(statements, Word::Slot).next().is_some();
    let mut scope = Scope {
        principals,
        slots: Declared::default(),
        numbered: !has_principals && !has_slots,
    };
    for statement in of(statements, Word::Slot) {
        let mut cursor = statement.cursor();
        cursor.take();
        let Token { kind, place, .. } = cursor.take();
        match kind {
            Kind::Name(text) if !cursor.is_joined() => {
                scope.slots.declare(Name { text, place });
            }
            _ => scope.slots.incomplete = true,
        }
    }
    // Slots without principals have their own error.
    scope.principals.incomplete |= !has_principals && has_slots;
    if let Some(before) = statements.iter().find(|statement| statement.word.is_none()) {
        Parser::new(before.cursor(), &scope, errors).nothing_more();
        scope.principals.incomplete = true;
        scope.slots.incomplete = true;
    }
    scope
}

/// A text with neither a store nor a programme.
fn nothing(statements: &[Statement], slots: &Slots, errors: &mut Errors) {
    let Some(first) = statements.first() else {
        let message =
            "there is nothing here: a text has a store, as in `principals digA < lab` and \
                       `slot x : lab = 0`, or a programme, as in `block lab { x := 1 }`, or both";
        errors.add(Place::START, message);
        return;
    };
    if slots.have_no_values() {
        let message = "this text has neither a store nor a programme: its slots have no values, \
                       as in `slot x : lab = 0`, and it has no block";
        errors.add(first.tokens[0].place, message);
    }
}
