//! What the options of a run say.

use std::ffi::OsString;

use muntyzhap::{Rule, MOST_BUDGET};

use crate::close::perhaps;
use crate::ending::Failure;
use crate::options::Given;

/// The rules by the names that an option gives them.
pub const RULES: [(&str, Rule); 5] = [
    ("access", Rule::AccessControl),
    ("capability", Rule::Capability),
    ("explicit", Rule::ExplicitProvenance),
    ("full", Rule::FullProvenance),
    ("default", Rule::Default),
];

/// The rule of a run for which none is given.
pub const USUAL_RULE: Rule = Rule::FullProvenance;

/// What a run may do, and what is seen of it. What is not given stands as none.
#[derive(Debug, Clone, Default)]
pub struct Settings {
    /// A number that need not be a rule's (11).
    pub rule: Option<u32>,
    /// Steps, perhaps too many (11).
    pub budget: Option<u32>,
    pub entries: Option<usize>,
    pub plain: bool,
    pub trace: bool,
    pub slice: Option<u32>,
    pub checkpoint: Option<OsString>,
    pub resume: Option<OsString>,
}

impl Settings {
    pub fn of(given: &Given) -> Result<Settings, Failure> {
        go_together(given)?;
        let path = |name| given.value(name).map(OsString::from);
        let slice = steps(given, "--slice", 1)?;
        if slice == Some(0) {
            return Err(given.wrong("--slice: a slice has at least 1 step"));
        }
        Ok(Settings {
            rule: rule(given)?,
            budget: steps(given, "--budget", 0)?,
            entries: given.number("--entries")?.map(|entries| entries as usize),
            plain: given.has("--plain"),
            trace: given.has("--trace"),
            slice,
            checkpoint: path("--checkpoint"),
            resume: path("--resume"),
        })
    }

    /// Whether the run can be paused, and then has no journal. A spent budget
    /// leaves a checkpoint.
    pub fn in_stretches(&self) -> bool {
        self.slice.is_some() || self.checkpoint.is_some() || self.resume.is_some()
    }

    /// The rule, where no checkpoint has one.
    pub fn rule(&self) -> u32 {
        self.rule.unwrap_or(USUAL_RULE.number())
    }

    /// The budget, where no checkpoint has one.
    pub fn budget(&self) -> u32 {
        self.budget.unwrap_or(MOST_BUDGET)
    }
}

fn go_together(given: &Given) -> Result<(), Failure> {
    for stretched in ["--slice", "--checkpoint", "--resume"] {
        let why = "a run that can be paused keeps no journal";
        given.not_both("--entries", stretched, why)?;
        let why = "the printing program does not pause";
        given.not_both("--plain", stretched, why)?;
    }
    Ok(())
}

/// A number of steps. One above the most of a run is taken too: the library judges
/// it (11).
fn steps(given: &Given, name: &str, least: u32) -> Result<Option<u32>, Failure> {
    given.number(name).map_err(|_| {
        let value = given.value(name).unwrap_or_default().to_string_lossy();
        given.wrong(format!(
            "{name}: {value} is no number from {least} to {MOST_BUDGET}"
        ))
    })
}

/// A rule by its name or by a number, whatever that is: the library judges it.
fn rule(given: &Given) -> Result<Option<u32>, Failure> {
    let Some(word) = given.word("--rule")? else {
        return Ok(None);
    };
    let named = RULES.iter().find(|(name, _)| *name == word);
    if let Some((_, rule)) = named {
        return Ok(Some(rule.number()));
    }
    if word.starts_with(|first: char| first.is_ascii_digit()) {
        return given.number("--rule");
    }
    let names = RULES.map(|(name, _)| name);
    let (perhaps, names) = (perhaps(word, names), names.join(", "));
    Err(given.wrong(format!(
        "--rule: {word} is no rule{perhaps}\nthe rules are {names}, or by number 0, 1, 2, 3, 255"
    )))
}

/// The name of a rule's number, for a message.
pub fn rule_name(number: u32) -> String {
    let named = RULES.iter().find(|(_, rule)| rule.number() == number);
    named.map_or(number.to_string(), |(name, _)| name.to_string())
}
