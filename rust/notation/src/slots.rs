//! The slots of a text.

use model::Slot;
use muntyzhap::sheet::MOST_SLOTS;

use crate::error::Errors;
use crate::parse::{Parser, SlotLine};
use crate::place::Place;
use crate::reading::of;
use crate::scope::{Name, Scope};
use crate::statement::Statement;
use crate::token::quoted;
use crate::word::Word;

pub struct Slots {
    /// By number; None where a line could not be read.
    lines: Vec<Option<SlotLine>>,
    /// Something that is no statement follows a line: it may be meant for one.
    pub is_followed: bool,
}

impl Slots {
    pub fn read(statements: &[Statement], scope: &Scope, errors: &mut Errors) -> Slots {
        judge_principals(statements, errors);
        let mut slots = Slots {
            lines: vec![],
            is_followed: false,
        };
        for statement in of(statements, Word::Slot) {
            let mut parser = Parser::new(statement.cursor(), scope, errors);
            parser.cursor.take();
            let Ok(name) = parser.name("the slot's name") else {
                continue;
            };
            let is_joined = parser.hyphen(name);
            let line = parser.slot_line(name.text).ok();
            slots.is_followed |= line.is_some() && !parser.cursor.is_at_end();
            if !is_joined && is_first(name, scope, errors) {
                judge_count(slots.lines.len(), name.place, errors);
                slots.lines.push(line);
            }
        }
        slots
    }

    /// The slots of a store, if all of them have values. Where some have, those
    /// that have none are told.
    pub fn values(&self, scope: &Scope, errors: &mut Errors) -> Option<Vec<Slot>> {
        let mut read = self.lines.iter().flatten();
        if read.any(|line| line.value.is_some()) {
            for (line, place) in self.lines.iter().zip(&scope.slots.places) {
                if is_without_value(line) {
                    let message =
                        "this slot has no opening value, and others have one: add it, as in `= 0`";
                    errors.add(*place, message);
                }
            }
        }
        let slots = self.lines.iter().map(|line| slot(line.as_ref()?));
        slots.collect()
    }

    /// The owners of all slots, if their lines could be read.
    pub fn owners(&self) -> Option<Vec<u8>> {
        let owners = self.lines.iter().map(|line| Some(line.as_ref()?.owner));
        owners.collect()
    }

    /// Whether there are slots, all without values.
    pub fn have_no_values(&self) -> bool {
        !self.lines.is_empty() && self.lines.iter().all(is_without_value)
    }
}

fn is_without_value(line: &Option<SlotLine>) -> bool {
    matches!(line, Some(line) if line.value.is_none())
}

/// Slots need a `principals` line, unless what stands first may be meant for one.
fn judge_principals(statements: &[Statement], errors: &mut Errors) {
    let has_principals = of(statements, Word::Principals).next().is_some();
    let is_clear = statements.iter().all(|statement| statement.word.is_some());
    if let Some(slot) = of(statements, Word::Slot)
        .next()
        .filter(|_| !has_principals && is_clear)
    {
        let message = "a slot has an owner, and this text has no `principals` line: \
                       add one, as in `principals digA < lab`";
        errors.add(slot.tokens[0].place, message);
    }
}

fn slot(line: &SlotLine) -> Option<Slot> {
    let value = line.value?;
    let owner = line.owner;
    Some(Slot { owner, value })
}

/// Whether the slot is declared here, and not before, which is told.
fn is_first(name: Name, scope: &Scope, errors: &mut Errors) -> bool {
    let number = scope.slots.number(name.text);
    let first = number.and_then(|number| scope.slots.places.get(number));
    match first {
        Some(first) if *first != name.place => {
            let message = format!("there is a slot {} already, at {first}", quoted(name.text));
            errors.add(name.place, message);
            false
        }
        _ => true,
    }
}

fn judge_count(before: usize, place: Place, errors: &mut Errors) {
    if before == MOST_SLOTS {
        let message = format!("a store has at most {MOST_SLOTS} slots, and this is one more");
        errors.add(place, message);
    }
}
