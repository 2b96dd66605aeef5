//! Assignments of runs, by how their labels stand to the slot's owner and to the
//! floor of their block. "Where rule 0 allows it, an endorsed assignment passes
//! under rules 2 and 3 when the meet of all labels judged stands at or above the
//! slot's owner, or at or above the floor." (document 02, N6)

use super::labels::Labels;
use super::Sort;
use crate::answers::Answer;
use crate::code::{Block, Command, Endorsement};
use crate::rehearsal::{Rehearsal, Watch};
use crate::tally::Checklist;

/// Stands for a step that is not refused.
const DONE: u32 = 0;
const NO_AUTHORITY: u32 = 14;
const TOO_LOW: u32 = 16;

/// The rules that judge labels, with the names of their lists.
const JUDGING: [(u32, [&str; 2]); 3] = [
    (2, ["endorsed, done, rule 2", "endorsed, refused, rule 2"]),
    (3, ["endorsed, done, rule 3", "endorsed, refused, rule 3"]),
    (
        255,
        ["endorsed, done, rule 255", "endorsed, refused, rule 255"],
    ),
];
/// The one among them that judges no branch.
const EXPLICIT: u32 = 2;

/// What lets an endorsed assignment pass.
const PASSES: [&str; 3] = ["by the owner alone", "by the floor alone", "by both"];

/// Why one is refused; the last not under rule 2. By a label alone: it reaches
/// neither owner nor floor, and the others would pass.
const REFUSALS: [&str; 6] = [
    "16 by the target alone",
    "16 by the value alone",
    "16 though each label reaches one of the two",
    "16 though all reach the meet of the two",
    "14 though all reach the floor",
    "16 by the branch alone",
];
const EACH: usize = 2;
const MEET: usize = 3;
const AUTHORITY: usize = 4;
const BY_BRANCH: usize = 5;

/// Where a floor has no say: under rules that judge no label, and in blocks that
/// are not endorsed.
const UNMINDED: [(u32, &str); 5] = [
    (0, "rule 0, done though labels reach neither"),
    (1, "rule 1, done though labels reach neither"),
    (2, "rule 2, 16 though labels reach what is ignored"),
    (3, "rule 3, 16 though labels reach what is ignored"),
    (255, "rule 255, 16 though labels reach what is ignored"),
];
/// Where the branch has none.
const UNJUDGED_BRANCH: &str = "rule 2, done though the branch reaches neither";

fn place_of<T>(rule: u32, list: &[(u32, T)]) -> Option<usize> {
    list.iter().position(|(own, _)| *own == rule)
}

/// Those of all the labels that the rule judges.
fn judged_by(rule: u32, labels: Labels) -> Labels {
    match rule {
        EXPLICIT => labels.without_branch(),
        _ => labels,
    }
}

/// How many assignments of runs came to what.
#[derive(Debug, Clone)]
pub struct Judged {
    done: [Checklist; JUDGING.len()],
    refused: [Checklist; JUDGING.len()],
    /// The floors of endorsed assignments that were done under these rules.
    floors_done: Checklist,
    /// Those of assignments that 16 refuses, the bottom being none of them.
    floors_refused: Checklist,
    unminded: Checklist,
    /// Endorsed assignments that were done or refused against document 02.
    wrong: u64,
}

impl Default for Judged {
    fn default() -> Judged {
        let done = JUDGING.map(|(_, [name, _])| Checklist::new(name, PASSES));
        let refused = JUDGING.map(|(rule, [_, name])| {
            let due = match rule {
                EXPLICIT => BY_BRANCH,
                _ => REFUSALS.len(),
            };
            Checklist::new(name, &REFUSALS[..due])
        });
        let unminded = UNMINDED.map(|(_, words)| words).into_iter();
        let unminded = unminded.chain([UNJUDGED_BRANCH]);
        Judged {
            done,
            refused,
            floors_done: Checklist::new("floors where it is done", Sort::ALL),
            floors_refused: Checklist::new("floors where 16 refuses it", &Sort::ALL[1..]),
            unminded: Checklist::new("without a say", unminded),
            wrong: 0,
        }
    }
}

impl Judged {
    /// Looks on while a run under this rule is followed.
    pub fn watcher(&mut self, rule: u32, answer: Answer) -> Watcher<'_> {
        Watcher {
            judged: self,
            rule,
            answer,
            steps: 0,
            block: None,
        }
    }

    /// The lists of what is done under rules that judge labels.
    fn lists_done(&self) -> impl Iterator<Item = &Checklist> {
        self.done.iter().chain([&self.floors_done])
    }

    fn lists(&self) -> impl Iterator<Item = &Checklist> {
        let others = [&self.floors_refused, &self.unminded];
        self.lists_done().chain(&self.refused).chain(others)
    }

    /// The counts, line by line.
    pub fn lines(&self) -> Vec<String> {
        self.lists().map(Checklist::to_string).collect()
    }

    /// What never came up in steps that were done, or is wrong, in words.
    pub fn complaints_of_steps_done(&self) -> Vec<String> {
        let missing = self.lists_done().flat_map(Checklist::complaints);
        missing.chain(self.complaint_of_wrong()).collect()
    }

    /// What never came up or is wrong, in words.
    pub fn complaints(&self) -> Vec<String> {
        let missing = self.lists().flat_map(Checklist::complaints);
        missing.chain(self.complaint_of_wrong()).collect()
    }

    fn complaint_of_wrong(&self) -> Option<String> {
        let wrong = self.wrong;
        (wrong > 0).then(|| format!("{wrong} endorsed assignments go against document 02"))
    }

    fn count_endorsed(&mut self, rule: u32, number: u32, labels: Labels, floors: Vec<Sort>) {
        let Some(place) = place_of(rule, &JUDGING) else {
            return self.count_unminded(rule, number == DONE && !labels.pass());
        };
        let branch_alone = labels.too_low_alone() == Some(Labels::BRANCH);
        let labels = judged_by(rule, labels);
        match number {
            DONE => {
                self.count_done(place, &labels);
                if rule == EXPLICIT && branch_alone {
                    self.unminded.count(UNJUDGED_BRANCH);
                }
                let floors = floors.into_iter().map(|sort| sort as usize);
                floors.for_each(|sort| self.floors_done.add(sort, 1));
            }
            TOO_LOW => {
                self.count_refused(place, &labels);
                let floors = floors.into_iter().filter_map(Sort::place_but_bottom);
                floors.for_each(|sort| self.floors_refused.add(sort, 1));
            }
            NO_AUTHORITY if labels.reach_floor() => self.refused[place].add(AUTHORITY, 1),
            _ => (),
        }
    }

    fn count_done(&mut self, place: usize, labels: &Labels) {
        match (labels.reach_owner(), labels.reach_floor()) {
            (true, false) => self.done[place].add(0, 1),
            (false, true) => self.done[place].add(1, 1),
            (true, true) => self.done[place].add(2, 1),
            (false, false) => self.wrong += 1,
        }
    }

    fn count_refused(&mut self, place: usize, labels: &Labels) {
        let alone = labels.too_low_alone().map(|label| match label {
            Labels::BRANCH => BY_BRANCH,
            other => other,
        });
        let each = labels.each_passes_alone().then_some(EACH);
        let meet = labels.reach_meet_of_both().then_some(MEET);
        let sorts = [alone, each, meet].into_iter().flatten();
        sorts.for_each(|sort| self.refused[place].add(sort, 1));
        self.wrong += u64::from(labels.pass());
    }

    /// Counts an assignment that 16 refuses in a block that is not endorsed.
    fn count_ignored(&mut self, rule: u32, labels: Labels) {
        self.count_unminded(rule, judged_by(rule, labels).reach_floor());
    }

    fn count_unminded(&mut self, rule: u32, came_up: bool) {
        if let (true, Some(place)) = (came_up, place_of(rule, &UNMINDED)) {
            self.unminded.add(place, 1);
        }
    }
}

/// Counts the assignments of one run.
pub struct Watcher<'a> {
    judged: &'a mut Judged,
    rule: u32,
    answer: Answer,
    /// How many steps were next so far.
    steps: u32,
    block: Option<(u8, Endorsement)>,
}

impl Watch for Watcher<'_> {
    fn enters(&mut self, _: &Rehearsal, block: &Block) {
        self.block = Some((block.region, block.endorsement));
    }

    fn comes_to(&mut self, stage: &Rehearsal, command: &Command, branch: u8) {
        let number = match self.steps < self.answer.steps {
            true => DONE,
            false => self.answer.number,
        };
        self.steps += 1;
        let lattice = &stage.table.lattice;
        let is_principal = |byte: u8| usize::from(byte) < lattice.principals();
        let labels = |floor| {
            let assigning = stage.assigning(command, branch)?;
            Some(Labels::of(assigning, stage, floor))
        };
        match self.block {
            Some((region, Endorsement::DownTo(floor))) => {
                if let Some(labels) = labels(floor) {
                    let floors = Sort::all_of(lattice, region, floor);
                    self.judged
                        .count_endorsed(self.rule, number, labels, floors);
                }
            }
            Some((_, Endorsement::Absent { ignored }))
                if number == TOO_LOW && is_principal(ignored) =>
            {
                if let Some(labels) = labels(ignored) {
                    self.judged.count_ignored(self.rule, labels);
                }
            }
            _ => (),
        }
    }
}

#[cfg(test)]
mod tests;
