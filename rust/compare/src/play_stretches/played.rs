//! What is counted of stretches.

use super::damage::Damage;
use crate::calls::{Seen, Stretch};
use crate::checkpoints::{steps_so_far, Checkpoint, Place};
use crate::code::Command;
use crate::decode::store_in;
use crate::play_runs::RULES;
use crate::tally::{Checklist, Tally};

/// Path lengths that have to come up.
const LENGTHS: [usize; 8] = [0, 1, 2, 3, 4, 5, 30, 31];
/// Where the budget stands beside the steps so far.
const BESIDE: [&str; 4] = ["below", "equal", "one more", "above"];
/// The buffers of a stretch that is carried on.
const BUFFERS: [&str; 4] = ["old output", "old pause sheet", "output", "pause buffer"];
/// The commands before whose step a run pauses.
const NEXT: [&str; 3] = ["assignment", "if", "while"];

/// Counts of the answers, of where runs were cut, of checkpoints that were damaged, of
/// budgets, of buffers of a wrong length, and of changes of rule.
#[derive(Debug, Clone)]
pub struct Played {
    starts: Tally,
    carried: Tally,
    /// Cuts after which a run was carried on.
    cuts: u64,
    /// Those in a block that is not the first.
    later: u64,
    /// Stretches from inside a while's body to a later round under a higher label.
    rises: u64,
    lengths: Checklist,
    next: Checklist,
    refused: Checklist,
    passed: Checklist,
    budgets: Checklist,
    buffers: Checklist,
    changes: Checklist,
}

impl Played {
    pub(super) fn new() -> Played {
        let all: Vec<u32> = (0..=17).collect();
        let with_19 = [&all[..], &[19]].concat();
        let may_pass = Damage::ALL
            .into_iter()
            .filter(|damage| !Damage::NEVER_GOOD.contains(damage));
        let changes = RULES.iter().flat_map(|(from, _, _)| {
            let others = RULES.iter().filter(move |(to, _, _)| to != from);
            others.map(move |(to, _, _)| change_words(*from, *to))
        });
        Played {
            starts: Tally::new("start", &all, &[18, 19]),
            carried: Tally::new("carry on", &with_19, &[18]),
            cuts: 0,
            later: 0,
            rises: 0,
            lengths: Checklist::new("cuts, by the length of their path", LENGTHS),
            next: Checklist::new("cuts, by what is next", NEXT),
            refused: Checklist::new("damage that is refused by 19", Damage::ALL),
            passed: Checklist::new("damage that is carried on from", may_pass),
            budgets: Checklist::new("budgets beside the steps so far", BESIDE),
            buffers: Checklist::new("buffers that alone have a wrong length", BUFFERS),
            changes: Checklist::new("changes of rule after which steps are done", changes),
        }
    }

    pub fn tallies(&self) -> [&Tally; 2] {
        [&self.starts, &self.carried]
    }

    fn checklists(&self) -> [&Checklist; 7] {
        [
            &self.lengths,
            &self.next,
            &self.refused,
            &self.passed,
            &self.budgets,
            &self.buffers,
            &self.changes,
        ]
    }

    /// The counts, line by line, without the tallies.
    pub fn lines(&self) -> Vec<String> {
        let (cuts, later, rises) = (self.cuts, self.later, self.rises);
        let cuts = format!(
            "{cuts} cuts that were carried on from, {later} in a later block; {rises} stretches \
             from one round to another with a higher label"
        );
        let lists = self.checklists().map(|list| list.to_string());
        [vec![cuts], lists.to_vec()].concat()
    }

    /// What is wrong with these counts, in words.
    pub fn complaints(&self) -> Vec<String> {
        let tallies = self.tallies().map(Tally::complaints).concat();
        let lists = self.checklists().map(Checklist::complaints).concat();
        let later = (self.later == 0).then(|| "no cut in a later block".to_string());
        let rises = (self.rises == 0).then(|| "no label that rises between rounds".to_string());
        let others = later.into_iter().chain(rises).collect();
        [tallies, lists, others].concat()
    }

    pub(super) fn count(&mut self, stretch: &Stretch, seen: &Seen) {
        let number = seen.answer.number;
        let Some(old) = &stretch.old else {
            return self.starts.count(number);
        };
        self.carried.count(number);
        if number == 12 {
            self.count_lengths(stretch, old);
        }
        if matches!(number, 0 | 13..=17) {
            let steps = steps_so_far(&old.pause);
            self.budgets.count(match stretch.budget.checked_sub(steps) {
                None => BESIDE[0],
                Some(0) => BESIDE[1],
                Some(1) => BESIDE[2],
                Some(_) => BESIDE[3],
            });
        }
    }

    /// Which buffer alone has another length than it should.
    fn count_lengths(&mut self, stretch: &Stretch, old: &Checkpoint) {
        let store = store_in(&stretch.store).expect("a good store sheet");
        let output = crate::outputs::output_length(store.table.slots());
        let is_wrong = [
            old.output.len() != output,
            old.pause.len() != Place::WIDTH,
            stretch.output_length != output,
            stretch.pause_length != Place::WIDTH,
        ];
        let mut wrong = BUFFERS
            .into_iter()
            .zip(is_wrong)
            .filter(|(_, wrong)| *wrong);
        if let (Some((only, _)), None) = (wrong.next(), wrong.next()) {
            self.buffers.count(only);
        }
    }

    pub(super) fn count_cut(&mut self, start: &Stretch, checkpoint: &Checkpoint) {
        let Some(place) = Place::in_sheet(&checkpoint.pause) else {
            return;
        };
        self.cuts += 1;
        self.later += u64::from(place.block > 0);
        self.lengths.count(place.path.len());
        let lattice = store_in(&start.store).map(|store| store.table.lattice);
        let next = lattice.and_then(|lattice| place.leads_to(&start.programme, &lattice));
        match next {
            Some((_, Command::Assign { .. })) => self.next.count(NEXT[0]),
            Some((_, Command::If { .. })) => self.next.count(NEXT[1]),
            Some((_, Command::While { .. })) => self.next.count(NEXT[2]),
            _ => (),
        }
    }

    /// Counts a stretch from a place to one along the same children whose labels stand
    /// somewhere higher, or beside those before.
    pub(super) fn count_rise(&mut self, next: &Stretch, seen: &Seen) {
        let place = |checkpoint: &Checkpoint| Place::in_sheet(&checkpoint.pause);
        let old = next.old.as_ref().and_then(place);
        let new = seen.checkpoint().as_ref().and_then(place);
        let lattice = store_in(&next.store).map(|store| store.table.lattice);
        let (Some((old, new)), Some(lattice)) = (old.zip(new), lattice) else {
            return;
        };
        let both = old.path.iter().zip(&new.path);
        let mut alike = both.take_while(|(old, new)| old.0 == new.0);
        let rises = alike.any(|(old, new)| !lattice.at_or_below(new.1, old.1));
        self.rises += u64::from(old.block == new.block && rises);
    }

    /// Counts a checkpoint with this damage by the answer's number.
    pub(super) fn count_damage(&mut self, damage: Damage, number: u32) {
        match number {
            19 => self.refused.count(damage),
            0 | 13..=17 => self.passed.count(damage),
            _ => (),
        }
    }

    /// Counts what was carried on under another rule.
    pub(super) fn count_change(&mut self, first: &Stretch, next: &Stretch, seen: &Seen) {
        let so_far = next.old.as_ref().map(|old| steps_so_far(&old.pause));
        let goes_on = matches!(seen.answer.number, 0 | 13..=17);
        if goes_on && so_far.is_some_and(|steps| seen.answer.steps > steps) {
            self.changes.count(change_words(first.rule, next.rule));
        }
    }
}

fn change_words(from: u32, to: u32) -> String {
    format!("{from} to {to}")
}
