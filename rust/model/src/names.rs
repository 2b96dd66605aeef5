//! Names of principals, slots and blocks.

use muntyzhap::Value;

/// What people call principals, slots and blocks, by number. What has no name of
/// its own is called by its number: `p0`, `s0`; a block may have none.
#[derive(Debug, Clone, PartialEq, Eq, Default)]
pub struct Names {
    pub principals: Vec<String>,
    pub slots: Vec<String>,
    pub blocks: Vec<Option<String>>,
}

impl Names {
    /// The letter before a principal's number, where it has no name.
    pub const PRINCIPAL: char = 'p';
    /// The letter before a slot's number, where it has no name.
    pub const SLOT: char = 's';

    pub fn principal(&self, number: usize) -> String {
        named(&self.principals, number, Names::PRINCIPAL)
    }

    pub fn slot(&self, number: usize) -> String {
        named(&self.slots, number, Names::SLOT)
    }

    /// A block's own name, if it has one.
    pub fn block(&self, number: usize) -> Option<&str> {
        self.blocks.get(number)?.as_deref()
    }

    /// A value as the notation writes it.
    pub fn value(&self, value: Value) -> String {
        match value {
            Value::Integer(integer) => integer.to_string(),
            Value::Truth(truth) => truth.to_string(),
            Value::ReadView(slot) => format!("read {}", self.slot(slot.into())),
            Value::WriteView(slot) => format!("write {}", self.slot(slot.into())),
        }
    }
}

fn named(names: &[String], number: usize, letter: char) -> String {
    match names.get(number) {
        Some(name) => name.clone(),
        None => format!("{letter}{number}"),
    }
}
