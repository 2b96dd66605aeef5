//! The code of a block, from bytes to a syntax tree: refusals 9 and 10.

use crate::answer::{Answer, BlockRefusal, Refusal};
use crate::bytes::take;
use crate::operation::Operator;
use crate::programme::{ProgrammeSheet, Region};
use crate::value::{Kind, Value};

#[derive(Debug, Clone)]
pub(crate) enum Expression {
    Literal(Value),
    Read(Box<Expression>),
    Operation(Box<Operation>),
}

impl Expression {
    /// "Expressions may now nest 8 deep, reads and operations together."
    /// (document 02, N5)
    const MOST_DEPTH: u32 = 8;
    const LITERAL: u8 = 0x10;
    const READ: u8 = 0x11;
}

/// "Each is followed by two expressions." (document 02, N5)
#[derive(Debug, Clone)]
pub(crate) struct Operation {
    pub operator: Operator,
    pub left: Expression,
    pub right: Expression,
}

/// A command and where its first byte stands in its block.
#[derive(Debug, Clone)]
pub(crate) struct Command {
    pub offset: u32,
    pub form: Form,
}

impl Command {
    /// "Commands nest inside commands up to 32 deep, the block's own command
    /// being depth 1."
    const MOST_DEPTH: u32 = 32;
    const SKIP: u8 = 0x20;
    const ASSIGNMENT: u8 = 0x21;
    const SEQUENCE: u8 = 0x22;
    const IF: u8 = 0x23;
    const WHILE: u8 = 0x24;
    /// "the child taken (from 0; then-part 0, else-part 1, body 0)" (document 02,
    /// N8)
    pub const THEN_PART: u8 = 0;
    pub const ELSE_PART: u8 = 1;
    pub const BODY: u8 = 0;

    /// The command inside this one by that number.
    pub fn part(&self, child: u8) -> Option<&Command> {
        match (&self.form, child) {
            (Form::Sequence(commands), _) => commands.get(usize::from(child)),
            (Form::If { then_part, .. }, Command::THEN_PART) => Some(then_part),
            (Form::If { else_part, .. }, Command::ELSE_PART) => Some(else_part),
            (Form::While { body, .. }, Command::BODY) => Some(body),
            _ => None,
        }
    }

    /// "A step is one guard judged or one assignment made": whether this command
    /// makes one itself.
    pub fn has_step(&self) -> bool {
        !matches!(self.form, Form::Skip | Form::Sequence(_))
    }
}

#[derive(Debug, Clone)]
pub(crate) enum Form {
    Skip,
    Assignment {
        target: Expression,
        value: Expression,
    },
    Sequence(Vec<Command>),
    If {
        guard: Expression,
        then_part: Box<Command>,
        else_part: Box<Command>,
    },
    While {
        guard: Expression,
        body: Box<Command>,
    },
}

impl Form {
    /// The fewest commands of a sequence; a byte sets the most.
    const FEWEST_IN_SEQUENCE: u8 = 2;
}

/// "A block is exactly one command", run for its region.
#[derive(Debug, Clone)]
pub(crate) struct Block {
    pub region: Region,
    pub command: Command,
}

/// Reads the code block by block; views in it name slots below `slots`.
pub(crate) fn parse_blocks(sheet: &ProgrammeSheet, slots: usize) -> Result<Vec<Block>, Answer> {
    let mut rest = sheet.code;
    let mut blocks = Vec::new();
    for (number, header) in sheet.headers.iter().enumerate() {
        let code = take(&mut rest, header.length).ok_or(Refusal::ProgrammeLength)?;
        let command = parse_block(code, slots)
            .map_err(|refused| refused.in_block(number, Answer::NO_STEPS))?;
        blocks.push(Block {
            region: header.region,
            command,
        });
    }
    Ok(blocks)
}

fn parse_block(code: &[u8], slots: usize) -> Result<Command, BlockRefusal> {
    let mut reader = CodeReader { code, at: 0, slots };
    let command = reader.command(Command::MOST_DEPTH)?;
    if reader.at < code.len() {
        // "bytes left over (the first of them)"
        return Err(ill_formed(reader.at));
    }
    Ok(command)
}

/// Where in a block's code the next byte is.
struct CodeReader<'a> {
    code: &'a [u8],
    at: usize,
    slots: usize,
}

impl<'a> CodeReader<'a> {
    /// Reads one command, which may be `depth_left` deep. "an unknown byte is
    /// 9 at any depth", so the depth is judged only where the byte is known.
    fn command(&mut self, depth_left: u32) -> Result<Command, BlockRefusal> {
        let at = self.at;
        let byte = self.byte()?;
        let inner_depth = depth_left.checked_sub(1).ok_or(too_deep(at));
        let form = match byte {
            Command::SKIP => inner_depth.map(|_| Form::Skip)?,
            Command::ASSIGNMENT => inner_depth.and_then(|_| self.assignment())?,
            Command::SEQUENCE => self.sequence(inner_depth?)?,
            Command::IF => self.if_command(inner_depth?)?,
            Command::WHILE => self.while_command(inner_depth?)?,
            _ => return Err(ill_formed(at)),
        };
        let offset = offset(at);
        Ok(Command { offset, form })
    }

    fn assignment(&mut self) -> Result<Form, BlockRefusal> {
        let target = self.whole_expression()?;
        let value = self.whole_expression()?;
        Ok(Form::Assignment { target, value })
    }

    fn sequence(&mut self, inner_depth: u32) -> Result<Form, BlockRefusal> {
        let at = self.at;
        let count = self.byte()?;
        if count < Form::FEWEST_IN_SEQUENCE {
            return Err(ill_formed(at));
        }
        let commands = (0..count).map(|_| self.command(inner_depth));
        Ok(Form::Sequence(commands.collect::<Result<_, _>>()?))
    }

    fn if_command(&mut self, inner_depth: u32) -> Result<Form, BlockRefusal> {
        let guard = self.whole_expression()?;
        let then_part = Box::new(self.command(inner_depth)?);
        let else_part = Box::new(self.command(inner_depth)?);
        Ok(Form::If {
            guard,
            then_part,
            else_part,
        })
    }

    fn while_command(&mut self, inner_depth: u32) -> Result<Form, BlockRefusal> {
        let guard = self.whole_expression()?;
        let body = Box::new(self.command(inner_depth)?);
        Ok(Form::While { guard, body })
    }

    fn whole_expression(&mut self) -> Result<Expression, BlockRefusal> {
        self.expression(Expression::MOST_DEPTH)
    }

    /// Reads one expression, in which reads and operations may be `depth_left`
    /// deep; a literal is of no depth. "the ninth is refused by 10", unless its
    /// byte is unknown.
    fn expression(&mut self, depth_left: u32) -> Result<Expression, BlockRefusal> {
        let at = self.at;
        let byte = self.byte()?;
        let inner_depth = depth_left.checked_sub(1).ok_or(too_deep(at));
        match byte {
            Expression::LITERAL => self.literal().map(Expression::Literal),
            Expression::READ => {
                let view = self.expression(inner_depth?)?;
                Ok(Expression::Read(Box::new(view)))
            }
            _ => {
                let operator = Operator::from_byte(byte).ok_or(ill_formed(at))?;
                self.operation(operator, inner_depth?)
            }
        }
    }

    /// Reads the two expressions that follow an operation's byte.
    fn operation(
        &mut self,
        operator: Operator,
        inner_depth: u32,
    ) -> Result<Expression, BlockRefusal> {
        let left = self.expression(inner_depth)?;
        let right = self.expression(inner_depth)?;
        let operation = Operation {
            operator,
            left,
            right,
        };
        Ok(Expression::Operation(Box::new(operation)))
    }

    /// "a bad literal at its kind byte, and the kind is judged before the
    /// payload's bytes are counted"
    fn literal(&mut self) -> Result<Value, BlockRefusal> {
        let at = self.at;
        let kind = Kind::from_byte(self.byte()?).ok_or(ill_formed(at))?;
        let payload = self.take(Value::PAYLOAD_BYTES)?;
        Value::from_payload(kind, payload, self.slots).ok_or(ill_formed(at))
    }

    fn byte(&mut self) -> Result<u8, BlockRefusal> {
        self.take(1).map(|bytes| bytes[0])
    }

    /// "code that ends early (offset: the block's length)"
    fn take(&mut self, count: usize) -> Result<&'a [u8], BlockRefusal> {
        let mut rest = self.code.get(self.at..).unwrap_or_default();
        let bytes = take(&mut rest, count).ok_or(ill_formed(self.code.len()))?;
        self.at += count;
        Ok(bytes)
    }
}

fn ill_formed(at: usize) -> BlockRefusal {
    BlockRefusal {
        refusal: Refusal::CodeIllFormed,
        offset: offset(at),
    }
}

fn too_deep(at: usize) -> BlockRefusal {
    BlockRefusal {
        refusal: Refusal::NestedTooDeep,
        offset: offset(at),
    }
}

/// A place in a block as an answer shows it; a block's length has two bytes,
/// so every place fits.
fn offset(at: usize) -> u32 {
    at as u32
}
