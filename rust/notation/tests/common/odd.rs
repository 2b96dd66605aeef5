//! Texts that say what a model says in any way that the grammar has.

use model::{Code, Command, Expression, Floor, Form, Names, Operator, Programme, Store};
use muntyzhap::Value;

use super::Random;

/// Where an expression stands, which says what needs parentheses there.
#[derive(Clone, Copy, PartialEq, Eq, PartialOrd, Ord)]
enum Level {
    Whole,
    Sum,
    Part,
}

/// The tokens of a text.
pub struct Odd<'a> {
    random: &'a mut Random,
    names: &'a Names,
    tokens: Vec<String>,
}

impl<'a> Odd<'a> {
    pub fn new(random: &'a mut Random, names: &'a Names) -> Odd<'a> {
        let tokens = vec![];
        Odd {
            random,
            names,
            tokens,
        }
    }

    /// All tokens so far as a text, with any space between.
    pub fn text(self) -> String {
        let mut text = String::new();
        if self.random.one_in(8) {
            text.push('\u{feff}');
        }
        let mut before: Option<&String> = None;
        for token in &self.tokens {
            let brackets = ["{", "}", "[", "]", "(", ")", ";", ","];
            let is_bracket = |token: &String| brackets.contains(&token.as_str());
            let may_join = is_bracket(token) || before.is_none_or(is_bracket);
            text.push_str(match self.random.below(12) {
                0..=2 if may_join => "",
                0..=6 => " ",
                7 => "\t",
                8 => "\n\n  ",
                9 => "\r\n",
                10 => " # a comment with { and ; and block\n",
                _ => "\u{a0}\n#\n",
            });
            text.push_str(token);
            before = Some(token);
        }
        text
    }

    fn put(&mut self, words: &str) {
        self.tokens.extend(words.split(' ').map(str::to_string));
    }

    fn name(&mut self, name: String) {
        self.tokens.push(name);
    }

    /// Names them all in order, then says who stands below whom, with more than
    /// is needed.
    pub fn principals(&mut self, store: &Store) {
        self.put("principals");
        for principal in 0..store.masks.len() {
            if principal > 0 {
                self.put(",");
            }
            self.name(self.names.principal(principal));
        }
        let mut pairs = vec![];
        for (upper, mask) in store.masks.iter().enumerate() {
            let lower = (0..store.masks.len()).filter(|lower| mask >> lower & 1 == 1);
            pairs.extend(
                lower
                    .filter(|lower| *lower != upper)
                    .map(|lower| (lower, upper)),
            );
        }
        self.random.shuffle(&mut pairs);
        for (lower, upper) in pairs {
            self.put("principals");
            self.name(self.names.principal(lower));
            self.put("<");
            self.name(self.names.principal(upper));
        }
    }

    pub fn slot(&mut self, store: &Store, number: usize, with_value: bool) {
        let slot = store.slots[number];
        self.put("slot");
        self.name(self.names.slot(number));
        self.put(":");
        self.name(self.names.principal(slot.owner.into()));
        if with_value {
            self.put("=");
            self.value(slot.value);
        }
    }

    pub fn block(&mut self, programme: &Programme, number: usize) {
        let block = &programme.blocks[number];
        self.put("block");
        if let Some(name) = self.names.block(number) {
            self.name(name.to_string());
            self.put(":");
        }
        self.name(self.names.principal(block.region.into()));
        match block.floor {
            Floor::DownTo(floor) => {
                self.put("endorsed down to");
                self.name(self.names.principal(floor.into()));
            }
            Floor::Ignored(0) if self.random.one_in(2) => {}
            Floor::Ignored(byte) => self.put(&format!("ignored {byte}")),
        }
        match &block.code {
            Code::Command(command) => self.body(command),
            Code::Raw(_) => panic!("no raw code is made here"),
        }
    }

    fn value(&mut self, value: Value) {
        match value {
            Value::Integer(integer) => self.integer(integer),
            Value::Truth(truth) => self.put(&truth.to_string()),
            Value::ReadView(slot) => {
                self.put("read");
                self.name(self.names.slot(slot.into()));
            }
            Value::WriteView(slot) => {
                self.put("write");
                self.name(self.names.slot(slot.into()));
            }
        }
    }

    fn integer(&mut self, integer: i64) {
        if integer < 0 {
            self.put("-");
        }
        let zeros = "0".repeat(if self.random.one_in(4) { 3 } else { 0 });
        let mut digits = String::new();
        for digit in format!("{zeros}{}", integer.unsigned_abs()).chars() {
            if !digits.is_empty() && self.random.one_in(4) {
                digits.push('_');
            }
            digits.push(digit);
        }
        self.put(&digits);
    }

    fn body(&mut self, command: &Command) {
        self.put("{");
        match &command.form {
            Form::Sequence(commands) if !self.random.one_in(4) => {
                for (number, command) in commands.iter().enumerate() {
                    if number > 0 {
                        self.put(";");
                    }
                    self.command(command);
                }
            }
            _ => self.command(command),
        }
        if self.random.one_in(3) {
            self.put(";");
        }
        self.put("}");
    }

    fn command(&mut self, command: &Command) {
        if self.random.one_in(8) {
            return self.body(command);
        }
        match &command.form {
            Form::Skip => self.put("skip"),
            Form::Assignment { target, value } => {
                self.target(target);
                self.put(":=");
                self.expression(value, Level::Whole);
            }
            Form::Sequence(_) => self.body(command),
            Form::While { guard, body } => {
                self.put("while");
                self.expression(guard, Level::Whole);
                self.body(body);
            }
            Form::If {
                guard,
                then_part,
                else_part,
            } => {
                self.put("if");
                self.expression(guard, Level::Whole);
                self.body(then_part);
                self.else_part(else_part);
            }
        }
    }

    fn else_part(&mut self, command: &Command) {
        match &command.form {
            Form::Skip if self.random.one_in(2) => {}
            Form::If { .. } if self.random.one_in(2) => {
                self.put("else");
                let bare = self.tokens.len();
                self.command(command);
                // Braces around it are a body of their own.
                assert!(["if", "{"].contains(&self.tokens[bare].as_str()));
            }
            _ => {
                self.put("else");
                self.body(command);
            }
        }
    }

    fn target(&mut self, target: &Expression) {
        match target {
            Expression::Literal(Value::WriteView(slot)) if !self.random.one_in(4) => {
                self.name(self.names.slot((*slot).into()));
            }
            view => self.bracketed("[", view, "]"),
        }
    }

    fn bracketed(&mut self, open: &str, expression: &Expression, close: &str) {
        self.put(open);
        self.expression(expression, Level::Whole);
        self.put(close);
    }

    fn expression(&mut self, expression: &Expression, level: Level) {
        if self.random.one_in(8) {
            return self.bracketed("(", expression, ")");
        }
        match expression {
            Expression::Literal(value) => self.value(*value),
            Expression::Read(view) => match **view {
                Expression::Literal(Value::ReadView(slot)) if !self.random.one_in(4) => {
                    self.name(self.names.slot(slot.into()));
                }
                _ => self.bracketed("[", view, "]"),
            },
            Expression::Operation(operator, left, right) => {
                let (own, on_right) = match operator {
                    Operator::Sum | Operator::Difference => (Level::Sum, Level::Part),
                    _ => (Level::Whole, Level::Sum),
                };
                if own < level {
                    return self.bracketed("(", expression, ")");
                }
                self.expression(left, Level::Sum);
                self.put(operator.sign());
                self.expression(right, on_right);
            }
        }
    }
}
