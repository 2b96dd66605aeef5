//! The code of a block: refusals 9 and 10.

mod expression;
mod fault;

use model::{Command, Expression, Form, Names};
use muntyzhap::code::{CommandKind, FEWEST_COMMANDS, MOST_COMMANDS, MOST_DEPTH};

use crate::text;
use crate::words::count;

pub(crate) use fault::CodeFault;

/// What the code of one block came to.
pub(crate) struct CodeRead {
    /// The lines of what was read, in the order of their bytes.
    pub lines: Vec<CodeLine>,
    pub command: Result<Command, CodeFault>,
}

/// Some bytes of a block and their line.
pub(crate) struct CodeLine {
    pub at: usize,
    pub length: usize,
    pub depth: usize,
    pub text: String,
}

/// Reads the code of a block; views in it are of slots below `slots`.
pub(crate) fn read(code: &[u8], slots: usize, names: &Names) -> CodeRead {
    let mut reader = Reader {
        code,
        at: 0,
        slots,
        names,
        lines: vec![],
        begun: (0, String::new()),
    };
    let command = reader.block();
    if let Err(fault) = &command {
        reader.leave(fault.at);
    }
    CodeRead {
        lines: reader.lines,
        command,
    }
}

/// Where a command stands.
#[derive(Clone, Copy)]
struct Spot {
    /// How many commands are around it, itself counted.
    depth: usize,
    /// How far in its line stands.
    indent: usize,
    /// Whether it is one of a sequence: braces of a block, an if or a while
    /// serve a sequence too, but in a sequence it needs its own.
    in_sequence: bool,
}

impl Spot {
    const BLOCK: Spot = Spot {
        depth: 1,
        indent: 1,
        in_sequence: false,
    };

    fn part(self) -> Spot {
        Spot {
            depth: self.depth + 1,
            indent: self.indent + 1,
            in_sequence: false,
        }
    }

    fn in_sequence(self) -> Spot {
        let own_braces = usize::from(self.in_sequence);
        Spot {
            depth: self.depth + 1,
            indent: self.indent + own_braces,
            in_sequence: true,
        }
    }
}

struct Reader<'a> {
    code: &'a [u8],
    at: usize,
    slots: usize,
    names: &'a Names,
    lines: Vec<CodeLine>,
    /// What is known of the command whose line is not written yet, and how far in
    /// it stands.
    begun: (usize, String),
}

impl Reader<'_> {
    /// "A block is exactly one command." (document 01)
    fn block(&mut self) -> Result<Command, CodeFault> {
        let command = self.command(Spot::BLOCK)?;
        let left = self.code.len() - self.at;
        let are_left = match left {
            0 => return Ok(command),
            1 => "1 byte is".to_string(),
            _ => format!("{left} bytes are"),
        };
        let reason = format!("{are_left} left over after the block's command");
        Err(CodeFault::ill_formed(self.at, left, reason))
    }

    /// One command. "an unknown byte is 9 at any depth", so the depth is judged
    /// only where the byte is known; it bounds the recursion.
    fn command(&mut self, spot: Spot) -> Result<Command, CodeFault> {
        let at = self.at;
        let byte = self.byte("a command should start")?;
        let kind = CommandKind::from_byte(byte);
        let kind = kind.ok_or_else(|| CodeFault::unknown_command(at, byte))?;
        if spot.depth > MOST_DEPTH {
            let (what, limit) = ("a command", "commands nest at most");
            let reason = format!("{what} {} deep; {limit} {MOST_DEPTH} deep", spot.depth);
            return Err(CodeFault::too_deep(at, reason));
        }
        self.begun = (spot.indent, format!("# {kind} .."));
        let form = match kind {
            CommandKind::Skip => self.skip(at, spot),
            CommandKind::Assignment => self.assignment(at, spot)?,
            CommandKind::Sequence => self.sequence(at, spot)?,
            CommandKind::If => self.if_command(at, spot)?,
            CommandKind::While => self.while_command(at, spot)?,
        };
        Ok(Command { at, form })
    }

    fn skip(&mut self, at: usize, spot: Spot) -> Form {
        self.line(at, spot, "skip".to_string());
        Form::Skip
    }

    fn assignment(&mut self, at: usize, spot: Spot) -> Result<Form, CodeFault> {
        let target = self.expression(0)?;
        let target_text = text::target(&target, self.names);
        self.begun = (spot.indent, format!("# {target_text} := .."));
        let value = self.expression(0)?;
        let value_text = text::expression(&value, self.names);
        self.line(at, spot, format!("{target_text} := {value_text}"));
        Ok(Form::Assignment { target, value })
    }

    fn sequence(&mut self, at: usize, spot: Spot) -> Result<Form, CodeFault> {
        let count_at = self.at;
        let size = usize::from(self.byte("a sequence's count should stand")?);
        if size < FEWEST_COMMANDS {
            let limits = format!("it has {FEWEST_COMMANDS} to {MOST_COMMANDS} commands");
            let reason = format!("a sequence's count is {size}; {limits}");
            return Err(CodeFault::ill_formed(count_at, 1, reason));
        }
        let brace = if spot.in_sequence { "{  " } else { "" };
        let words = format!("{brace}# a sequence of {}", count(size, "command"));
        self.line(at, spot, words);
        let mut commands = vec![];
        for number in 0..size {
            if number > 0 {
                self.separate();
            }
            commands.push(self.command(spot.in_sequence())?);
        }
        if spot.in_sequence {
            self.line(self.at, spot, text::END.to_string());
        }
        Ok(Form::Sequence(commands))
    }

    fn if_command(&mut self, at: usize, spot: Spot) -> Result<Form, CodeFault> {
        let guard = self.guard("if", at, spot)?;
        let then_part = Box::new(self.command(spot.part())?);
        self.line(self.at, spot, "} else {".to_string());
        let else_part = Box::new(self.command(spot.part())?);
        self.line(self.at, spot, text::END.to_string());
        Ok(Form::If {
            guard,
            then_part,
            else_part,
        })
    }

    fn while_command(&mut self, at: usize, spot: Spot) -> Result<Form, CodeFault> {
        let guard = self.guard("while", at, spot)?;
        let body = Box::new(self.command(spot.part())?);
        self.line(self.at, spot, text::END.to_string());
        Ok(Form::While { guard, body })
    }

    fn guard(&mut self, word: &str, at: usize, spot: Spot) -> Result<Expression, CodeFault> {
        let guard = self.expression(0)?;
        let guard_text = text::expression(&guard, self.names);
        self.line(at, spot, format!("{word} {guard_text} {{"));
        Ok(guard)
    }

    /// The line of the bytes from here to where the reader is.
    fn line(&mut self, at: usize, spot: Spot, text: String) {
        self.lines.push(CodeLine {
            at,
            length: self.at - at,
            depth: spot.indent,
            text,
        });
    }

    /// Sets the command before apart from the next one.
    fn separate(&mut self) {
        if let Some(line) = self.lines.last_mut() {
            line.text.push(';');
        }
    }

    /// Where the reading stopped: what was begun up to there gets its line.
    fn leave(&mut self, at: usize) {
        let from = self.lines.last().map_or(0, |line| line.at + line.length);
        if from < at {
            let (depth, text) = std::mem::take(&mut self.begun);
            self.lines.push(CodeLine {
                at: from,
                length: at - from,
                depth,
                text,
            });
        }
    }
}
