//! Stores, programmes and their commands.

use muntyzhap::code::{CommandKind, DIFFERENCE, EQUAL, LESS_THAN, SUM};
use muntyzhap::Value;

/// A store: its order table, a mask for each principal, and its slots.
#[derive(Debug, Clone, PartialEq, Eq, Default)]
pub struct Store {
    /// Bit j of mask i is set when principal j stands at or below i.
    pub masks: Vec<u32>,
    pub slots: Vec<Slot>,
}

/// A slot: its owner and what it holds at opening.
#[derive(Debug, Clone, Copy, PartialEq, Eq)]
pub struct Slot {
    pub owner: u8,
    pub value: Value,
}

/// The blocks of a programme, in their order.
#[derive(Debug, Clone, PartialEq, Eq, Default)]
pub struct Programme {
    pub blocks: Vec<Block>,
}

/// A block: for whom it runs, and its code.
#[derive(Debug, Clone, PartialEq, Eq)]
pub struct Block {
    /// A principal.
    pub region: u8,
    pub floor: Floor,
    pub code: Code,
}

/// The floor byte of a block.
#[derive(Debug, Clone, Copy, PartialEq, Eq)]
pub enum Floor {
    /// The block is endorsed, down to this principal.
    DownTo(u8),
    /// It is not endorsed: the byte may be any, and means nothing.
    Ignored(u8),
}

/// What a block runs.
#[derive(Debug, Clone, PartialEq, Eq)]
pub enum Code {
    Command(Command),
    /// Bytes as somebody sent them.
    Raw(Vec<u8>),
}

/// A command and where it stands: in a block's code the offset of its first
/// byte, in a text the place of its first byte there.
#[derive(Debug, Clone, PartialEq, Eq)]
pub struct Command {
    pub at: usize,
    pub form: Form,
}

#[derive(Debug, Clone, PartialEq, Eq)]
pub enum Form {
    Skip,
    Assignment {
        target: Expression,
        value: Expression,
    },
    Sequence(Vec<Command>),
    If {
        guard: Expression,
        then_part: Box<Command>,
        else_part: Box<Command>,
    },
    While {
        guard: Expression,
        body: Box<Command>,
    },
}

impl Form {
    pub fn kind(&self) -> CommandKind {
        match self {
            Form::Skip => CommandKind::Skip,
            Form::Assignment { .. } => CommandKind::Assignment,
            Form::Sequence(_) => CommandKind::Sequence,
            Form::If { .. } => CommandKind::If,
            Form::While { .. } => CommandKind::While,
        }
    }

    /// The commands inside, in the order of their bytes.
    pub fn parts(&self) -> Vec<&Command> {
        match self {
            Form::Skip | Form::Assignment { .. } => vec![],
            Form::Sequence(commands) => commands.iter().collect(),
            Form::If {
                then_part,
                else_part,
                ..
            } => vec![then_part, else_part],
            Form::While { body, .. } => vec![body],
        }
    }
}

impl Command {
    /// The command that stands there: this one, or one inside.
    pub fn find(&self, at: usize) -> Option<&Command> {
        if self.at == at {
            return Some(self);
        }
        self.form.parts().into_iter().find_map(|part| part.find(at))
    }
}

#[derive(Debug, Clone, PartialEq, Eq)]
pub enum Expression {
    Literal(Value),
    Read(Box<Expression>),
    Operation(Operator, Box<Expression>, Box<Expression>),
}

/// The operations, by their first byte.
#[derive(Debug, Clone, Copy, PartialEq, Eq)]
pub enum Operator {
    Sum,
    Difference,
    LessThan,
    Equal,
}

impl Operator {
    pub const ALL: [Operator; 4] = [
        Operator::Sum,
        Operator::Difference,
        Operator::LessThan,
        Operator::Equal,
    ];

    pub fn byte(self) -> u8 {
        match self {
            Operator::Sum => SUM,
            Operator::Difference => DIFFERENCE,
            Operator::LessThan => LESS_THAN,
            Operator::Equal => EQUAL,
        }
    }

    pub fn from_byte(byte: u8) -> Option<Operator> {
        let mut all = Operator::ALL.into_iter();
        all.find(|operator| operator.byte() == byte)
    }

    /// Its sign in the notation.
    pub fn sign(self) -> &'static str {
        match self {
            Operator::Sum => "+",
            Operator::Difference => "-",
            Operator::LessThan => "<",
            Operator::Equal => "==",
        }
    }
}
