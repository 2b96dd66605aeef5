//! Expressions and targets.

use model::{Expression, Operator};
use muntyzhap::code::MOST_NESTED;
use muntyzhap::Value;

use super::{Parsed, Parser, MOST_OPEN};
use crate::place::Place;
use crate::scope::{Name, Sort};
use crate::token::{Kind, Token};

/// An expression, and how deep reads and operations nest in it. One that nests too
/// deep is told, and stands as any other.
pub struct Part {
    expression: Expression,
    depth: usize,
}

impl Part {
    fn literal(value: Value) -> Part {
        let expression = Expression::Literal(value);
        Part {
            expression,
            depth: 0,
        }
    }

    /// What stands for an expression that could not be read.
    fn any() -> Part {
        Part::literal(Value::Integer(0))
    }
}

fn sign_operator(token: &Token) -> Option<Operator> {
    let mut all = Operator::ALL.into_iter();
    all.find(|operator| token.is(operator.sign()))
}

impl Parser<'_, '_> {
    pub fn expression(&mut self) -> Parsed<Expression> {
        Ok(self.comparison()?.expression)
    }

    /// The target of an assignment, if one stands here.
    pub fn target(&mut self) -> Option<Parsed<Expression>> {
        let token = self.cursor.peek();
        match token.kind {
            Kind::Name(text) => {
                self.cursor.take();
                let place = token.place;
                let slot = self
                    .scope
                    .byte(Sort::Slot, Name { text, place }, self.errors);
                Some(Ok(Expression::Literal(Value::WriteView(slot))))
            }
            Kind::Sign("[") => Some(self.enclosed("]").map(|part| part.expression)),
            _ => None,
        }
    }

    fn comparison(&mut self) -> Parsed<Part> {
        let mut left = self.sum()?;
        let mut compared = 0;
        loop {
            let token = self.cursor.peek();
            // Such a sign or word is told: what is around it is read on.
            let is_told = token.kind == Kind::Wrong && self.cursor.take().kind == token.kind;
            if is_told || self.and_or() {
                left = self.sum()?;
                compared = 0;
                continue;
            }
            let Some(operator) = self.comparing(token) else {
                return Ok(left);
            };
            compared += 1;
            if compared == 2 {
                let message = "of several comparisons put each in parentheses but the last";
                self.tell(token.place, message);
            }
            self.cursor.take();
            let right = self.sum()?;
            left = self.operation(token.place, operator, left, right);
        }
    }

    /// The sign of a comparison, or one that was meant for it.
    fn comparing(&mut self, token: Token) -> Option<Operator> {
        // In brackets it is rather one that is not closed.
        let is_open = self.brackets > 0;
        if token.is("=") || token.is(":=") && !is_open {
            let message = format!("to compare, write `==`, not {}", token.shown());
            self.tell(token.place, message);
            return Some(Operator::Equal);
        }
        sign_operator(&token)
    }

    fn sum(&mut self) -> Parsed<Part> {
        let mut left = self.part()?;
        loop {
            let token = self.cursor.peek();
            let operator = match sign_operator(&token) {
                Some(operator @ (Operator::Sum | Operator::Difference)) => operator,
                _ => return Ok(left),
            };
            self.cursor.take();
            let right = self.part()?;
            left = self.operation(token.place, operator, left, right);
        }
    }

    fn part(&mut self) -> Parsed<Part> {
        if let Some(value) = self.value() {
            return value.map(Part::literal);
        }
        if self.not() {
            return self.bounded(Parser::part);
        }
        let token = self.cursor.peek();
        match token.kind {
            Kind::Name(text) => {
                self.cursor.take();
                let place = token.place;
                let slot = self
                    .scope
                    .byte(Sort::Slot, Name { text, place }, self.errors);
                Ok(self.read(place, Part::literal(Value::ReadView(slot))))
            }
            Kind::Sign("[") => {
                let view = self.enclosed("]")?;
                Ok(self.read(token.place, view))
            }
            Kind::Sign("(") => self.enclosed(")"),
            Kind::Sign("-") | Kind::Wrong => {
                if token.is("-") {
                    let message =
                        "a `-` stands before a number or between two parts: write `0 - ..`";
                    self.tell(token.place, message);
                }
                while self.cursor.peek().is("-") || self.cursor.peek().kind == Kind::Wrong {
                    self.cursor.take();
                }
                self.bounded(Parser::part)
            }
            _ => Err(self.expected("a value, a slot's name, `[..]` or `(..)`")),
        }
    }

    /// What stands between an opening bracket, which is next, and this closing one.
    fn enclosed(&mut self, close: &str) -> Parsed<Part> {
        let open = self.cursor.take();
        let part = self.bounded(Parser::comparison)?;
        if self.cursor.take_sign(close).is_none() {
            let what = format!("`{close}` to close the {} of {}", open.shown(), open.place);
            return Err(self.expected(&what));
        }
        Ok(part)
    }

    /// Reads on, unless too much is open.
    fn bounded(&mut self, read: impl Fn(&mut Self) -> Parsed<Part>) -> Parsed<Part> {
        if self.brackets == MOST_OPEN {
            let message = format!("parentheses and brackets stand more than {MOST_OPEN} deep here");
            return Err(self.tell(self.cursor.peek().place, message));
        }
        self.brackets += 1;
        let part = read(self);
        self.brackets -= 1;
        part
    }

    fn read(&mut self, place: Place, view: Part) -> Part {
        let depth = view.depth;
        let read = Expression::Read(Box::new(view.expression));
        self.deeper(place, depth, read)
    }

    fn operation(&mut self, place: Place, operator: Operator, left: Part, right: Part) -> Part {
        let depth = left.depth.max(right.depth);
        let (left, right) = (Box::new(left.expression), Box::new(right.expression));
        self.deeper(place, depth, Expression::Operation(operator, left, right))
    }

    /// An expression around others that nest so deep. The first that passes the
    /// limit is told; what is too deep is not kept, so that no tree is high.
    fn deeper(&mut self, place: Place, depth: usize, expression: Expression) -> Part {
        let depth = depth + 1;
        if depth <= MOST_NESTED {
            return Part { expression, depth };
        }
        if depth == MOST_NESTED + 1 {
            let message = format!(
                "reads and operations nest at most {MOST_NESTED} deep, and here {depth} (a slot's name is a read): \
                 group a long sum as in `(a + b) + (c + d)`, or assign a part of it to a slot first"
            );
            self.tell(place, message);
        }
        let expression = Part::any().expression;
        let depth = MOST_NESTED + 1;
        Part { expression, depth }
    }
}
