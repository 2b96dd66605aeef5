//! Commands that are made long, or endless.

use muntyzhap::code::{assign, literal, sequence, skip, while_command, Command};
use muntyzhap::{BuildError, Value};

/// The byte and the count that a sequence starts with.
const SEQUENCE_HEAD: usize = 2;

/// A loop that ends with the budget.
pub fn forever(body: Command) -> Result<Command, BuildError> {
    while_command(literal(Value::Truth(true)), body)
}

/// One command of exactly so many bytes: a sequence of assignments, and of
/// skips for the rest.
pub fn filled(bytes: usize) -> Result<Command, BuildError> {
    let each = assign(0, literal(Value::Integer(1)));
    let (length, room) = (each.bytes().len(), bytes - SEQUENCE_HEAD);
    let mut commands = vec![each; room / length];
    commands.resize(commands.len() + room % length, skip());
    sequence(&commands)
}

/// The same, longer than one sequence can be.
pub fn filled_widely(bytes: usize) -> Result<Command, BuildError> {
    const PARTS: usize = 8;
    let room = bytes - SEQUENCE_HEAD;
    let mut parts = vec![filled(room / PARTS)?; PARTS - 1];
    parts.push(filled(room / PARTS + room % PARTS)?);
    sequence(&parts)
}
