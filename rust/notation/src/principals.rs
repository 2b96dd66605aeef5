//! `principals` lines, and the order that they come to.

use model::order::{fault, Fault};
use model::Names;
use muntyzhap::sheet::MOST_PRINCIPALS;

use crate::error::{Errors, Told};
use crate::parse::{Parsed, Parser};
use crate::scope::{Declared, Name, Scope};
use crate::statement::Statement;
use crate::token::{quoted, Kind};

/// What the `principals` lines of a text say.
#[derive(Default)]
pub struct Order {
    pub declared: Declared,
    /// Who stands below whom, as the lines have it.
    below: Vec<(usize, usize)>,
}

impl Order {
    /// One more line.
    pub fn add(&mut self, statement: &Statement, errors: &mut Errors) {
        let scope = Scope::default();
        let mut parser = Parser::new(statement.cursor(), &scope, errors);
        parser.cursor.take();
        if self.line(&mut parser).is_err() {
            self.declared.incomplete = true;
        }
        if !self.declared.incomplete {
            parser.nothing_more();
        }
    }

    fn line(&mut self, parser: &mut Parser) -> Parsed<()> {
        let mut lower: Vec<usize> = vec![];
        loop {
            let upper = self.group(parser, &lower)?;
            let token = parser.cursor.peek();
            if !token.is("<") && token.kind != Kind::Wrong {
                return Ok(());
            }
            self.declared.incomplete |= token.kind == Kind::Wrong;
            parser.cursor.take();
            lower = upper;
        }
    }

    /// One more of a group, above those before.
    fn member(&mut self, name: Name, group: &mut Vec<usize>, lower: &[usize], parser: &mut Parser) {
        let number = self.declare(name, parser.errors);
        if lower.contains(&number) {
            let message = format!("{} can't stand below itself", quoted(name.text));
            parser.tell(name.place, message);
            self.declared.incomplete = true;
        }
        // What is past the limit is told, and left out.
        if number < MOST_PRINCIPALS && !group.contains(&number) {
            self.below
                .extend(lower.iter().map(|lower| (*lower, number)));
            group.push(number);
        }
    }

    /// Principals with commas between, each above those before.
    fn group(&mut self, parser: &mut Parser, lower: &[usize]) -> Parsed<Vec<usize>> {
        let mut group = vec![];
        loop {
            let name = parser.name("a principal's name")?;
            match parser.hyphen(name) {
                true => self.declared.incomplete = true,
                false => self.member(name, &mut group, lower, parser),
            }
            let token = parser.cursor.peek();
            match token.kind {
                Kind::Sign(",") => {
                    parser.cursor.take();
                }
                Kind::Name(_) => {
                    let message =
                        format!("a `,` or a `<` is missing here, before {}", token.shown());
                    parser.tell(parser.cursor.after(), message);
                    self.declared.incomplete = true;
                }
                _ => return Ok(group),
            }
        }
    }

    fn declare(&mut self, name: Name, errors: &mut Errors) -> usize {
        let before = self.declared.names.len();
        let number = self.declared.declare(name);
        if number == before && number == MOST_PRINCIPALS {
            let message =
                format!("there are at most {MOST_PRINCIPALS} principals, and this is one more");
            errors.add(name.place, message);
        }
        number
    }

    /// The masks of the order: reflexive and transitive. What it lacks is told.
    pub fn masks(&self, errors: &mut Errors) -> Parsed<Vec<u32>> {
        let count = self.declared.names.len();
        if self.declared.incomplete || !(1..=MOST_PRINCIPALS).contains(&count) {
            return Err(Told);
        }
        let masks = self.closure();
        let Some(fault) = fault(&masks) else {
            return Ok(masks);
        };
        let names = Names {
            principals: self.declared.names.clone(),
            ..Names::default()
        };
        errors.add(self.declared.places[about(&fault)], fault.tell(&names));
        Err(Told)
    }

    /// Each above itself, above those that the lines say, and above whoever these
    /// are above, until nothing is added.
    fn closure(&self) -> Vec<u32> {
        let count = self.declared.names.len();
        let mut masks: Vec<u32> = (0..count).map(|own| 1 << own).collect();
        loop {
            let before = masks.clone();
            for (lower, upper) in &self.below {
                masks[*upper] |= masks[*lower];
            }
            if masks == before {
                return masks;
            }
        }
    }
}

/// The first principal that a fault is about.
fn about(fault: &Fault) -> usize {
    match fault {
        Fault::BitBeyond { principal, .. } => *principal,
        Fault::NotBelowItself(principal) => *principal,
        Fault::Cycle(one, _) => *one,
        Fault::NotTransitive(lower, _, _) => *lower,
        Fault::NoMeet { first, .. } => *first,
        Fault::NoTop(highest) => highest.first().copied().unwrap_or(0),
    }
}
