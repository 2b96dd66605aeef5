//! 16: labels that stand too low.

mod advice;
mod guards;

use second_runner::{Seen, Stopped};

use crate::scene::Scene;

/// An assignment that was refused by 16.
pub struct TooLow<'a> {
    pub scene: &'a Scene<'a>,
    pub stopped: &'a Stopped,
    /// The slot that it would write, and its owner.
    pub slot: usize,
    pub owner: u8,
    pub target: &'a Seen,
    pub value: &'a Seen,
    pub branch_judged: bool,
    /// Of all the labels judged.
    pub meet: u8,
}

/// What has a label.
#[derive(Clone, Copy, PartialEq, Eq)]
enum Labelled {
    Target,
    Value,
    Branch,
}

impl Labelled {
    const ALL: [Labelled; 3] = [Labelled::Target, Labelled::Value, Labelled::Branch];
    /// As wide as the longest of their words.
    const WIDTH: usize = "target".len();

    fn word(self) -> &'static str {
        match self {
            Labelled::Target => "target",
            Labelled::Value => "value",
            Labelled::Branch => "branch",
        }
    }
}

/// What the labels have to stand at or above: the owner, or in an endorsed block
/// the floor.
struct Bar {
    principal: u8,
    called: String,
}

impl TooLow<'_> {
    pub fn lines(&self) -> Vec<String> {
        let (scene, owner) = (self.scene, self.scene.called(self.owner));
        let mut lines = vec![format!(
            "  It would write {}, which {owner} owns. {}",
            scene.slot(self.slot),
            self.needs()
        )];
        lines.extend(Labelled::ALL.into_iter().flat_map(|one| self.judged(one)));
        lines.extend(self.advice());
        lines
    }

    fn label(&self, of: Labelled) -> u8 {
        match of {
            Labelled::Target => self.target.label,
            Labelled::Value => self.value.label,
            Labelled::Branch => self.stopped.branch,
        }
    }

    /// What has to hold. "It is one meet": in a block that is not endorsed each label
    /// by itself comes to the same.
    fn needs(&self) -> String {
        let scene = self.scene;
        let (owner, meet) = (scene.called(self.owner), scene.called(self.meet));
        match self.stopped.floor {
            None => format!("Every label judged has to stand at or above {owner}."),
            Some(floor) if floor == self.owner => format!(
                "The block is endorsed down to {owner}, the owner itself, which lifts nothing here: every label \
                 judged has to stand at or above {owner}."
            ),
            Some(floor) => {
                let floor = scene.called(floor);
                format!(
                    "The block is endorsed down to {floor}, so the meet of all labels judged has to stand at or \
                     above {owner}, or at or above {floor}. It is {meet}, which does neither."
                )
            }
        }
    }

    /// A floor that is the owner is no bar of its own.
    fn bars(&self) -> Vec<Bar> {
        let called = self.scene.called(self.owner);
        let principal = self.owner;
        let mut bars = vec![Bar { principal, called }];
        let floor = self.stopped.floor.filter(|floor| *floor != self.owner);
        bars.extend(floor.map(|principal| Bar {
            principal,
            called: format!("the floor {}", self.scene.principal(principal)),
        }));
        bars
    }

    /// "    target  digA  too low: read from place, which digA owns", and lines
    /// below it where there is more to say.
    fn judged(&self, of: Labelled) -> Vec<String> {
        let name = |of| self.scene.principal(self.label(of));
        let widths = Labelled::ALL.map(|one| name(one).chars().count());
        let label_width = widths.into_iter().max().unwrap_or(0);
        let (words, width) = (self.verdict(of), Labelled::WIDTH);
        let lines = words.into_iter().enumerate().map(|(number, words)| {
            let (word, label) = match number {
                0 => (of.word(), name(of)),
                _ => ("", String::new()),
            };
            format!("    {word:width$}  {label:label_width$}  {words}")
        });
        lines.collect()
    }

    fn verdict(&self, of: Labelled) -> Vec<String> {
        if of == Labelled::Branch && !self.branch_judged {
            return vec![format!("not judged under {}", self.scene.rule)];
        }
        let bars = self.bars().into_iter().map(|bar| {
            let blamed = self.blamed(of, bar.principal);
            (bar, blamed)
        });
        match bars.collect::<Vec<_>>().as_slice() {
            bars if bars.iter().all(|(_, blamed)| blamed.is_empty()) => {
                let either = if bars.len() > 1 { " for either" } else { "" };
                vec![format!("enough{either}: {}", self.source(of))]
            }
            [(_, blamed)] => clause("too low", blamed),
            [(owner, one), (floor, other)] if one == other => {
                let both = format!("too low for {} and for {}", owner.called, floor.called);
                clause(&both, one)
            }
            bars => (bars.iter())
                .flat_map(|(bar, blamed)| match blamed.is_empty() {
                    true => vec![format!("enough for {}", bar.called)],
                    false => clause(&format!("too low for {}", bar.called), blamed),
                })
                .collect(),
        }
    }

    /// What keeps a label from standing at or above a principal. A label is a meet,
    /// so this is each owner or guard that does not stand there itself; none if the
    /// label does.
    fn blamed(&self, of: Labelled, bar: u8) -> Vec<String> {
        let is_low = |label| !self.scene.is_at_or_above(label, bar);
        let read = |seen| self.scene.read_from(seen, is_low).into_iter().collect();
        match of {
            Labelled::Target => read(self.target),
            Labelled::Value => read(self.value),
            Labelled::Branch if self.branch_judged => guards::low(self.scene, self.stopped, is_low),
            Labelled::Branch => vec![],
        }
    }

    /// Where a label that is enough came from.
    fn source(&self, of: Labelled) -> String {
        let read = |seen| {
            let read = self.scene.read_from(seen, |_| true);
            read.unwrap_or("no slot was read".to_string())
        };
        match of {
            Labelled::Target => read(self.target),
            Labelled::Value => read(self.value),
            Labelled::Branch if self.stopped.guards.is_empty() => {
                "no guard is open around it".to_string()
            }
            Labelled::Branch => "no guard around it pulls it down".to_string(),
        }
    }
}

/// One reason stands behind the words, several below them.
fn clause(words: &str, reasons: &[String]) -> Vec<String> {
    match reasons {
        [] => vec![words.to_string()],
        [reason] => vec![format!("{words}: {reason}")],
        reasons => {
            let head = std::iter::once(format!("{words}:"));
            let below = reasons.iter().map(|reason| format!("  {reason}"));
            head.chain(below).collect()
        }
    }
}
