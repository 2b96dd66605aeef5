//! Commands and bodies.

use model::{suggestion, Command, Expression, Form};
use muntyzhap::code::{MOST_COMMANDS, MOST_DEPTH};
use muntyzhap::Value;

use super::{Parsed, Parser, MOST_OPEN};
use crate::scope::Name;
use crate::token::{Kind, Token};
use crate::word::Word;

fn skip(at: usize) -> Command {
    let form = Form::Skip;
    Command { at, form }
}

impl<'t> Parser<'_, 't> {
    /// `{ .. }`: its one command, or a sequence.
    pub fn body(&mut self) -> Parsed<Command> {
        let Some(open) = self.cursor.take_sign("{") else {
            return Err(self.expected("`{`"));
        };
        if self.braces == MOST_OPEN {
            let message = format!(
                "braces stand more than {MOST_OPEN} deep here: commands nest at most {MOST_DEPTH} deep"
            );
            self.tell(open.place, message);
            self.pass_closed();
            return Ok(skip(open.at));
        }
        self.braces += 1;
        let commands = self.commands(open);
        self.braces -= 1;
        Ok(self.of_commands(open, commands))
    }

    /// The commands up to the closing brace, and that.
    fn commands(&mut self, open: Token) -> Vec<Command> {
        let mut commands = vec![];
        loop {
            let token = self.cursor.peek();
            if self.cursor.take_sign("}").is_some() {
                break;
            }
            if self.cursor.is_at_end() {
                let message = format!("a `}}` is missing here: the `{{` of {} is open", open.place);
                self.tell(token.place, message);
                if commands.is_empty() {
                    commands.push(skip(open.at));
                }
                break;
            }
            match self.command() {
                Ok(command) => commands.push(command),
                Err(_) => {
                    self.pass_command();
                    commands.push(skip(token.at));
                }
            }
            if commands.len() == MOST_COMMANDS + 1 {
                let message = format!(
                    "braces have at most {MOST_COMMANDS} commands: put some of them in braces of their own"
                );
                self.tell(token.place, message);
            }
            self.between();
        }
        commands
    }

    fn of_commands(&mut self, open: Token, mut commands: Vec<Command>) -> Command {
        match commands.len() {
            0 => {
                let message =
                    "there is no command in these braces: write `skip` for one that does nothing";
                self.tell(open.place, message);
                skip(open.at)
            }
            1 => commands.remove(0),
            _ => {
                let form = Form::Sequence(commands);
                Command { at: open.at, form }
            }
        }
    }

    /// What separates a command from the next or from the closing brace.
    fn between(&mut self) {
        let token = self.cursor.peek();
        if self.cursor.take_sign(";").is_some() || token.is("}") || self.cursor.is_at_end() {
            return;
        }
        if token.starts_command() {
            let message = format!("a `;` is missing here, before {}", token.shown());
            self.tell(self.cursor.after(), message);
            return;
        }
        self.unexpected_between(token);
        self.pass_command();
        self.cursor.take_sign(";");
    }

    fn unexpected_between(&mut self, token: Token) {
        match token.kind {
            Kind::Sign(close @ (")" | "]")) => {
                self.tell(token.place, format!("this `{close}` closes nothing"));
            }
            Kind::Word(Word::Else) => {
                self.tell(token.place, "this `else` follows no `if`");
            }
            _ => {
                self.expected("`;` or `}`");
            }
        }
    }

    fn command(&mut self) -> Parsed<Command> {
        let token = self.cursor.peek();
        match token.kind {
            Kind::Sign("{") => self.body(),
            Kind::Word(Word::Skip) => Ok(skip(self.cursor.take().at)),
            Kind::Word(Word::If) => self.if_command(),
            Kind::Word(Word::While) => self.while_command(),
            _ => self.assignment(token),
        }
    }

    fn assignment(&mut self, first: Token<'t>) -> Parsed<Command> {
        if let Some(told) = self.no_assignment(first) {
            return told;
        }
        let Some(target) = self.target() else {
            return Err(
                self.expected("a command (an assignment, `if`, `while`, `skip` or `{ .. }`)")
            );
        };
        let target = target?;
        if let Kind::Name(text) = first.kind {
            let place = first.place;
            self.hyphen(Name { text, place });
        }
        let sign = self.cursor.peek();
        if sign.is("=") || sign.is("==") {
            let message = format!("an assignment is written with `:=`, not {}", sign.shown());
            self.tell(sign.place, message);
        } else if !sign.is(":=") {
            return Err(self.expected("`:=` after the target of an assignment"));
        }
        self.cursor.take();
        let value = self.expression()?;
        let form = Form::Assignment { target, value };
        Ok(Command { at: first.at, form })
    }

    /// Common mistakes where an assignment should start.
    fn no_assignment(&mut self, first: Token) -> Option<Parsed<Command>> {
        let message = match first.kind {
            Kind::Name(name) => {
                let next = self.cursor.ahead(1);
                if [":=", "=", "=="].iter().any(|sign| next.is(sign)) {
                    return None;
                }
                let words = [Word::If, Word::While, Word::Skip, Word::Else].map(Word::text);
                let shown = first.shown();
                let suggestion = suggestion(name, words)?;
                format!("expected `:=` after {shown}: {suggestion}")
            }
            Kind::Sign(";") => "there is no command before this `;`".to_string(),
            Kind::Word(Word::Else) => {
                "an `else` follows the `}` of its `if`, without a `;` between".to_string()
            }
            Kind::Word(Word::Read | Word::Write) => {
                "a target is a slot's name, or an expression in brackets: `x := ..` or `[..] := ..`"
                    .to_string()
            }
            _ => return None,
        };
        Some(Err(self.tell(first.place, message)))
    }

    fn if_command(&mut self) -> Parsed<Command> {
        let at = self.cursor.take().at;
        let guard = self.guard()?;
        let then_part = Box::new(self.body()?);
        let else_part = match self.cursor.take_word(Word::Else) {
            None => skip(at),
            Some(_) if self.cursor.peek().is_word(Word::If) => self.else_if()?,
            Some(_) => self.body()?,
        };
        let else_part = Box::new(else_part);
        let form = Form::If {
            guard,
            then_part,
            else_part,
        };
        Ok(Command { at, form })
    }

    /// An else-part that is an `if` without braces.
    fn else_if(&mut self) -> Parsed<Command> {
        if self.braces + 1 >= MOST_OPEN {
            let message = format!(
                "this stands more than {MOST_OPEN} deep: commands nest at most {MOST_DEPTH} deep"
            );
            return Err(self.tell(self.cursor.peek().place, message));
        }
        self.braces += 1;
        let command = self.if_command();
        self.braces -= 1;
        command
    }

    fn while_command(&mut self) -> Parsed<Command> {
        let at = self.cursor.take().at;
        let guard = self.guard()?;
        let body = Box::new(self.body()?);
        let form = Form::While { guard, body };
        Ok(Command { at, form })
    }

    /// A guard. Where it can't be read, what follows in braces is read all the
    /// same.
    fn guard(&mut self) -> Parsed<Expression> {
        let guard = self.expression();
        let Err(told) = guard else {
            return guard;
        };
        while !self.cursor.is_at_end() {
            match self.cursor.peek().kind {
                Kind::Sign("{") => return Ok(Expression::Literal(Value::Truth(true))),
                Kind::Sign(";" | "}") => break,
                _ => self.cursor.take(),
            };
        }
        Err(told)
    }

    /// Passes over the rest of a command that could not be read.
    fn pass_command(&mut self) {
        while !self.cursor.is_at_end() {
            match self.cursor.peek().kind {
                Kind::Sign(";" | "}") => return,
                Kind::Sign("{") => {
                    self.cursor.take();
                    self.pass_closed();
                }
                _ => {
                    self.cursor.take();
                }
            }
        }
    }

    /// Passes over everything to the brace that closes one that is taken.
    fn pass_closed(&mut self) {
        let mut open = 1;
        while open > 0 && !self.cursor.is_at_end() {
            match self.cursor.take().kind {
                Kind::Sign("{") => open += 1,
                Kind::Sign("}") => open -= 1,
                _ => {}
            }
        }
    }
}
