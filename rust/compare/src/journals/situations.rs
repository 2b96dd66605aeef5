//! Situations of runs and the journals that they are lent.

use super::Writes;
use crate::answers::Answer;
use crate::calls::{Run, Seen};
use crate::code::Command;
use crate::decode::{parts_around, Part};
use crate::rehearsal::Rehearsal;
use crate::steps::Followed;
use crate::tally::Checklist;
use crate::values::Value;

const FINISHED: u32 = 0;
const WRONG_KIND: u32 = 13;
const SPENT: u32 = 17;
const FULL: u32 = 18;

/// How runs finish: the first four by writes and entries, one of them each time.
const ENDS: [&str; 8] = [
    "no write, no entry",
    "no write, entries left",
    "an entry for each write",
    "writes, entries left",
    "guards judged with no entry free",
    "a slot written again",
    "a value written that was there",
    "entries of several blocks",
];

/// Numbers by which runs are refused. After a write its entry would show.
const AFTER_WRITES: [u32; 6] = [13, 14, 15, 16, SPENT, FULL];

/// Where 18 comes: the first five by what is around the command.
const PLACES: [&str; 9] = [
    "at a block's own command",
    "in a sequence",
    "in a then-part",
    "in an else-part",
    "in a loop's body",
    "in block 0",
    "in a later block",
    "with no entry lent",
    "after guards judged with no entry free",
];

/// What the step would come to, were an entry free.
const AHEAD: [&str; 6] = [
    "a write",
    "13 by the target",
    "13 by the value",
    "14",
    "15",
    "16",
];

/// What is next where 17 comes.
const NEXT: [&str; 4] = [
    "an assignment, entries free",
    "an assignment, no entry free",
    "a guard, entries free",
    "a guard, no entry free",
];

/// How many runs that took place were in which situation.
#[derive(Debug, Clone)]
pub struct Situations {
    runs: u64,
    ends: Checklist,
    after_writes: Checklist,
    places: Checklist,
    ahead: Checklist,
    next: Checklist,
    /// Runs that go against document 02.
    wrong: u64,
}

impl Default for Situations {
    fn default() -> Situations {
        Situations {
            runs: 0,
            ends: Checklist::new("finished", ENDS),
            after_writes: Checklist::new("refused after writes", AFTER_WRITES),
            places: Checklist::new("18", PLACES),
            ahead: Checklist::new("18 ahead of", AHEAD),
            next: Checklist::new("17 ahead of", NEXT),
            wrong: 0,
        }
    }
}

impl Situations {
    /// Counts a run, if all its steps are followed.
    pub fn count(&mut self, followed: &Followed, seen: &Seen) {
        if !followed.is_whole() {
            return;
        }
        self.runs += 1;
        let mut writes = Writes::of(followed);
        let stage = followed.play(&mut writes);
        let refused = followed.refused();
        let assigns = matches!(refused, Some(Command::Assign { .. }));
        self.wrong += u64::from(!is_right(&writes, assigns, followed.run, seen));
        if writes.made > 0 {
            self.after_writes.count(seen.answer.number);
        }
        match seen.answer.number {
            FINISHED => self.count_end(&writes, seen),
            FULL => {
                self.count_place(&writes, followed);
                self.count_ahead(&stage, followed);
            }
            SPENT => {
                let next = 2 * usize::from(!assigns) + usize::from(writes.fill_all());
                self.next.add(next, 1);
            }
            _ => (),
        }
    }

    fn count_end(&mut self, writes: &Writes, seen: &Seen) {
        let entries = &seen.journal.filled;
        let fit = 2 * usize::from(writes.made > 0) + usize::from(!writes.fill_all());
        let mut slots: Vec<usize> = entries.iter().map(|entry| entry.slot).collect();
        slots.sort_unstable();
        let others = [
            writes.guards_when_full > 0,
            slots.windows(2).any(|two| two[0] == two[1]),
            entries.iter().any(|entry| entry.old == entry.new),
            entries.windows(2).any(|two| two[0].block != two[1].block),
        ];
        self.ends.add(fit, 1);
        for (other, came_up) in others.into_iter().enumerate() {
            self.ends.add(4 + other, u64::from(came_up));
        }
    }

    fn count_place(&mut self, writes: &Writes, followed: &Followed) {
        let (programme, answer) = (&followed.run.programme, followed.answer);
        let around = parts_around(programme, answer.block, answer.offset);
        let part = match around.as_deref().and_then(<[Part]>::last) {
            None => 0,
            Some(Part::Sequence) => 1,
            Some(Part::Then) => 2,
            Some(Part::Else) => 3,
            Some(Part::Body) => 4,
        };
        self.places.add(part, 1);
        let others = [
            answer.block == 0,
            answer.block > 0,
            followed.run.journal_length == 0,
            writes.guards_when_full > 0,
        ];
        for (other, came_up) in others.into_iter().enumerate() {
            self.places.add(5 + other, u64::from(came_up));
        }
    }

    /// With one entry more the step comes to what 18 was ahead of.
    fn count_ahead(&mut self, stage: &Rehearsal, followed: &Followed) {
        let longer = Run {
            journal_length: followed.run.journal_length + 1,
            ..followed.run.clone()
        };
        let other = longer.second().answer;
        let place = |of: Answer| (of.block, of.offset, of.steps);
        let ahead = match other.number {
            _ if place(other) != place(followed.answer) => 0,
            WRONG_KIND => 1 + usize::from(has_target(stage, followed)),
            number @ 14..=16 => number as usize - 11,
            _ => 0,
        };
        self.ahead.add(ahead, 1);
    }

    fn lists(&self) -> [&Checklist; 5] {
        [
            &self.ends,
            &self.after_writes,
            &self.places,
            &self.ahead,
            &self.next,
        ]
    }

    /// The counts, line by line.
    pub fn lines(&self) -> Vec<String> {
        self.lists().map(Checklist::to_string).into()
    }

    /// What came up too seldom or is wrong, in words.
    pub fn complaints(&self) -> Vec<String> {
        let few = self.runs / SELDOM;
        let rare = self.lists().map(|list| list.complaints_up_to(few)).concat();
        let wrong = self.wrong;
        let wrong = (wrong > 0).then(|| format!("{wrong} journals go against document 02"));
        rare.into_iter().chain(wrong).collect()
    }
}

/// One run in so many is too few.
const SELDOM: u64 = 4_000;

/// As many entries are filled as writes were made, and 18 comes just where an
/// assignment is next, the budget is not spent, and no entry is free.
fn is_right(writes: &Writes, assigns: bool, run: &Run, seen: &Seen) -> bool {
    let spent = seen.answer.steps == run.budget;
    let full = assigns && writes.fill_all();
    match seen.answer.number {
        FINISHED => seen.journal.filled.len() == writes.made,
        SPENT => spent && writes.made <= run.journal_length,
        FULL => !spent && full,
        _ => !spent && !full,
    }
}

/// Whether the target of the assignment that is next is a write view.
fn has_target(stage: &Rehearsal, followed: &Followed) -> bool {
    let Some(Command::Assign { target, .. }) = followed.refused() else {
        return false;
    };
    matches!(stage.evaluate(&target), Some((Value::WriteView(_), _)))
}

#[cfg(test)]
mod tests;
