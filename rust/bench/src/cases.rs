//! Everything that is timed, by what is asked of it.

use muntyzhap::BuildError;

use crate::floors::of_floors;
use crate::journals::{of_journals, Ending};
use crate::operations::{counting, of_expressions};
use crate::pauses::{of_pauses, of_slices};
use crate::runners::Lent;
use crate::stretches::{Paused, Sliced};
use crate::timing::Case;
use crate::workloads::{full_sheets, of_long_steps, of_skipping, of_skips, of_speed, Workload};

/// Full provenance and access control.
const RULES: [u32; 2] = [3, 0];

/// The workloads, by their letters.
pub struct Workloads {
    speed: Vec<Workload>,
    skipping: Vec<[Workload; 2]>,
    full: Workload,
    skip: Workload,
    skips: Vec<Workload>,
    longest: Vec<Workload>,
    counting: Ending,
    expressions: Vec<Workload>,
    floors: [Workload; 2],
    endings: Vec<Ending>,
    pauses: Vec<Workload>,
    slices: Vec<Workload>,
}

impl Workloads {
    pub fn all() -> Result<Workloads, BuildError> {
        let (skip, skips) = of_skips()?;
        Ok(Workloads {
            speed: of_speed()?,
            skipping: of_skipping()?,
            full: full_sheets()?,
            skip,
            skips,
            longest: of_long_steps()?,
            counting: Ending::of(counting()?),
            expressions: of_expressions()?,
            floors: of_floors()?,
            endings: of_journals()?,
            pauses: of_pauses()?,
            slices: of_slices()?,
        })
    }
}

/// A run that finishes, and the same refused at its last step or write.
pub struct Ended<'a> {
    pub finished: Case<'a>,
    pub spent: Case<'a>,
    pub full: Option<Case<'a>>,
    pub writes: usize,
}

impl<'a> Ended<'a> {
    fn of(ending: &'a Ending, rule: u32, lent: &mut Lent) -> Ended<'a> {
        let mut case = |workload| Case::new(workload, rule, lent);
        Ended {
            finished: case(&ending.finished),
            spent: case(&ending.spent),
            full: ending.full.as_ref().map(case),
            writes: ending.writes,
        }
    }

    fn all(&self) -> impl Iterator<Item = &Case<'a>> {
        [&self.finished, &self.spent].into_iter().chain(&self.full)
    }

    fn all_mut(&mut self) -> impl Iterator<Item = &mut Case<'a>> {
        let two = [&mut self.finished, &mut self.spent];
        two.into_iter().chain(&mut self.full)
    }
}

/// Every workload under every rule.
pub struct Cases<'a> {
    /// (a) to (d).
    pub speed: Vec<Case<'a>>,
    /// (e), with a short part that isn't taken, and with a long one.
    pub short: Vec<Case<'a>>,
    pub long: Vec<Case<'a>>,
    /// (f).
    pub full: Vec<Case<'a>>,
    /// (g), with one skip, and with many.
    pub skip: Vec<Case<'a>>,
    pub skips: Vec<Case<'a>>,
    /// (h).
    pub longest: Vec<Case<'a>>,
    /// (i).
    pub counting: Vec<Ended<'a>>,
    /// (j).
    pub expressions: Vec<Case<'a>>,
    /// (k), by the owner, and by the floor.
    pub owner: Vec<Case<'a>>,
    pub floor: Vec<Case<'a>>,
    /// (l).
    pub ended: Vec<Ended<'a>>,
    /// (m).
    pub paused: Vec<Paused<'a>>,
    /// (n).
    pub sliced: Vec<Sliced<'a>>,
}

impl<'a> Cases<'a> {
    pub fn of(workloads: &'a Workloads, lent: &mut Lent) -> Cases<'a> {
        let skipping = || workloads.skipping.iter();
        let [owner, floor] = &workloads.floors;
        Cases {
            speed: under_rules(&workloads.speed, lent),
            short: under_rules(skipping().map(|[short, _]| short), lent),
            long: under_rules(skipping().map(|[_, long]| long), lent),
            full: under_rules([&workloads.full], lent),
            skip: under_rules([&workloads.skip], lent),
            skips: under_rules(&workloads.skips, lent),
            longest: under_rules(&workloads.longest, lent),
            counting: ended_under_rules([&workloads.counting], lent),
            expressions: under_rules(&workloads.expressions, lent),
            owner: under_rules([owner], lent),
            floor: under_rules([floor], lent),
            ended: ended_under_rules(&workloads.endings, lent),
            paused: workloads.pauses.iter().map(Paused::new).collect(),
            sliced: workloads.slices.iter().map(Sliced::new).collect(),
        }
    }

    /// Those whose time is that of a step.
    pub fn steps(&self) -> impl Iterator<Item = &Case<'a>> {
        let known = self.speed.iter().chain(&self.short).chain(&self.long);
        let known = known.chain(&self.skip).chain(&self.skips);
        let known = known.chain(&self.longest);
        let known = known.chain(self.counting.iter().flat_map(Ended::all));
        let known = known.chain(&self.expressions);
        let known = known.chain(&self.owner).chain(&self.floor);
        known.chain(self.ended.iter().flat_map(Ended::all))
    }

    /// Those that finish, each with the same refused: (i) and (l).
    pub fn ended(&self) -> impl Iterator<Item = &Ended<'a>> {
        self.counting.iter().chain(&self.ended)
    }

    /// Times each once that is timed in this round.
    pub fn repeat(&mut self, round: u32, lent: &mut Lent) {
        let all = self.speed.iter_mut();
        let all = all.chain(&mut self.short).chain(&mut self.long);
        let all = all.chain(&mut self.full);
        let all = all.chain(&mut self.skip).chain(&mut self.skips);
        let all = all.chain(&mut self.longest);
        let all = all.chain(&mut self.expressions);
        let all = all.chain(&mut self.owner).chain(&mut self.floor);
        let ended = self.counting.iter_mut().chain(&mut self.ended);
        let all = all.chain(ended.flat_map(Ended::all_mut));
        let timed = all.filter(|case| round < case.workload.rounds);
        timed.for_each(|case| case.repeat(lent));
        self.paused.iter_mut().for_each(Paused::repeat);
        self.sliced.iter_mut().for_each(Sliced::repeat);
    }
}

fn under_rules<'a>(
    workloads: impl IntoIterator<Item = &'a Workload>,
    lent: &mut Lent,
) -> Vec<Case<'a>> {
    let workloads = workloads.into_iter();
    let cases = workloads.flat_map(|workload| RULES.map(|rule| (workload, rule)));
    cases
        .map(|(workload, rule)| Case::new(workload, rule, lent))
        .collect()
}

fn ended_under_rules<'a>(
    endings: impl IntoIterator<Item = &'a Ending>,
    lent: &mut Lent,
) -> Vec<Ended<'a>> {
    let endings = endings.into_iter();
    let ended = endings.flat_map(|ending| RULES.map(|rule| (ending, rule)));
    ended
        .map(|(ending, rule)| Ended::of(ending, rule, lent))
        .collect()
}
