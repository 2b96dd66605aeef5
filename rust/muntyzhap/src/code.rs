//! The code of a block, written from named parts. What is built here is read by
//! the library as it was meant, save for what only a store can tell: whether it
//! has the slots that the views are of (9).

mod expression;

use std::fmt::{self, Display, Formatter};

use crate::build_error::BuildError;
use crate::value::Value;

pub use expression::{
    difference, equal, less_than, literal, read, read_through, reads, sum, Expression, DIFFERENCE,
    EQUAL, LESS_THAN, LITERAL, MOST_NESTED, READ, SUM,
};

/// How deep commands nest, a block's own command being depth 1.
pub const MOST_DEPTH: usize = 32;
/// The fewest commands of a sequence.
pub const FEWEST_COMMANDS: usize = 2;
/// The most commands of a sequence: its count is one byte.
pub const MOST_COMMANDS: usize = u8::MAX as usize;

/// The commands, by their first byte.
#[derive(Debug, Clone, Copy, PartialEq, Eq)]
pub enum CommandKind {
    /// Does nothing.
    Skip = 0x20,
    /// Writes a value to the slot that its target views.
    Assignment = 0x21,
    /// Commands in order.
    Sequence = 0x22,
    /// One of two commands, by a guard.
    If = 0x23,
    /// A command as long as a guard is true.
    While = 0x24,
}

impl CommandKind {
    const ALL: [CommandKind; 5] = [
        CommandKind::Skip,
        CommandKind::Assignment,
        CommandKind::Sequence,
        CommandKind::If,
        CommandKind::While,
    ];

    /// The byte by which the command is known.
    pub fn byte(self) -> u8 {
        self as u8
    }

    /// The command that is known by this byte, if one is.
    pub fn from_byte(byte: u8) -> Option<CommandKind> {
        let mut all = CommandKind::ALL.into_iter();
        all.find(|kind| kind.byte() == byte)
    }
}

impl Display for CommandKind {
    fn fmt(&self, out: &mut Formatter) -> fmt::Result {
        out.write_str(match self {
            CommandKind::Skip => "skip",
            CommandKind::Assignment => "assignment",
            CommandKind::Sequence => "sequence",
            CommandKind::If => "if",
            CommandKind::While => "while",
        })
    }
}

/// A command, well-formed.
#[derive(Debug, Clone, PartialEq, Eq)]
pub struct Command {
    bytes: Vec<u8>,
    /// How deep commands nest in it, itself being depth 1.
    depth: usize,
}

impl Command {
    /// The bytes of its code.
    pub fn bytes(&self) -> &[u8] {
        &self.bytes
    }

    /// A command with no others inside.
    fn plain(kind: CommandKind, parts: &[Expression]) -> Command {
        let parts = parts.iter().flat_map(Expression::bytes);
        let bytes = [kind.byte()].iter().chain(parts).copied().collect();
        Command { bytes, depth: 1 }
    }

    /// A command around others; `head` stands between its byte and them.
    fn around(kind: CommandKind, head: &[u8], inner: &[Command]) -> Result<Command, BuildError> {
        let deepest = inner.iter().map(|command| command.depth).max();
        let depth = 1 + deepest.unwrap_or(0);
        if depth > MOST_DEPTH {
            return Err(BuildError::Depth(depth));
        }
        let inner = inner.iter().flat_map(|command| &command.bytes);
        let head = [kind.byte()].into_iter().chain(head.iter().copied());
        let bytes = head.chain(inner.copied()).collect();
        Ok(Command { bytes, depth })
    }
}

/// A command that does nothing.
pub fn skip() -> Command {
    Command::plain(CommandKind::Skip, &[])
}

/// An assignment to the slot that an expression views.
pub fn assignment(target: Expression, value: Expression) -> Command {
    Command::plain(CommandKind::Assignment, &[target, value])
}

/// An assignment to the slot that a literal names.
pub fn assign(slot: u8, value: Expression) -> Command {
    assignment(literal(Value::WriteView(slot)), value)
}

/// 2 to 255 commands in order.
///
/// # Errors
/// [`BuildError::Commands`] for fewer or more, [`BuildError::Depth`] if they nest
/// too deep in it.
pub fn sequence(commands: &[Command]) -> Result<Command, BuildError> {
    let size = commands.len();
    let enough = size >= FEWEST_COMMANDS;
    let count = u8::try_from(size).ok().filter(|_| enough);
    let count = count.ok_or(BuildError::Commands(size))?;
    Command::around(CommandKind::Sequence, &[count], commands)
}

/// One of two commands, by a guard.
///
/// # Errors
/// [`BuildError::Depth`] if they nest too deep in it.
pub fn if_command(
    guard: Expression,
    then_part: Command,
    else_part: Command,
) -> Result<Command, BuildError> {
    Command::around(CommandKind::If, guard.bytes(), &[then_part, else_part])
}

/// A command as long as a guard is true.
///
/// # Errors
/// [`BuildError::Depth`] if it nests too deep in it.
pub fn while_command(guard: Expression, body: Command) -> Result<Command, BuildError> {
    Command::around(CommandKind::While, guard.bytes(), &[body])
}

/// What a block's code is: a command that was built here, or bytes from
/// elsewhere.
#[derive(Debug, Clone, PartialEq, Eq)]
pub struct Code(Vec<u8>);

impl Code {
    /// Any bytes, such as a customer sends. Nothing is known of them; the
    /// library judges them (9 and 10).
    pub fn unjudged(bytes: impl Into<Vec<u8>>) -> Code {
        Code(bytes.into())
    }

    /// The bytes.
    pub fn bytes(&self) -> &[u8] {
        &self.0
    }
}

impl From<Command> for Code {
    fn from(command: Command) -> Code {
        Code(command.bytes)
    }
}
