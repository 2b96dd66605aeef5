//! Whole runs under every rule, with budgets around the steps they need and
//! journals around the writes they make.

use crate::ample::{plain_run, Ample, Spare};
use crate::author::{Author, Care};
use crate::budgets::{random_budget, Budgets};
use crate::calls::{Call, Difference, Run, Runner, Runners, Seen};
use crate::code::programme_sheet;
use crate::damage::damaged;
use crate::high_bytes::HighBytes;
use crate::integers::Integers;
use crate::journals::{long_runs, random_length, Counts, Lengths, Situations};
use crate::limits::programme_at_limit;
use crate::operations::Places;
use crate::outputs::Record;
use crate::play_sheets::{good_programme, large_programme, random_programme};
use crate::proved;
use crate::random::Random;
use crate::rule_numbers::{other_rule, WIDE};
use crate::sheets::{flawed_store_sheet, Store};
use crate::steps::{Followed, Steps};
use crate::tally::{Checklist, Tally, NUMBERS};
use crate::values::Value;

/// The rules, each with the numbers from 14 to 16 that it can refuse by and
/// those that it cannot.
pub const RULES: [(u32, &[u32], &[u32]); 5] = [
    (0, &[14], &[15, 16]),
    (1, &[15], &[14, 16]),
    (2, &[14, 16], &[15]),
    (3, &[14, 16], &[15]),
    (255, &[14, 16], &[15]),
];

/// No run in one stretch is refused by what is judged of a checkpoint.
const OF_CHECKPOINTS: u32 = 19;

/// Counts of each rule, of rule numbers that there are not, of those among them
/// that are wide, of budgets, of journals, of ill-formed values, of the integers
/// that runs end with, of code refused in an operand and of steps.
#[derive(Debug, Clone)]
pub struct Played {
    rules: Vec<(u32, Tally)>,
    other: Tally,
    wide: Checklist,
    budgets: Budgets,
    lengths: Lengths,
    situations: Situations,
    counts: Counts,
    high_bytes: HighBytes,
    integers: Integers,
    places: Places,
    steps: Steps,
}

impl Played {
    fn new() -> Played {
        let tally = |(rule, due, impossible): (u32, &[u32], &[u32])| {
            // A run of any rule can be refused ahead of it.
            let mut all_due: Vec<u32> = (0..=13).collect();
            all_due.extend_from_slice(due);
            all_due.extend([17, 18]);
            let impossible = [impossible, &[OF_CHECKPOINTS]].concat();
            (
                rule,
                Tally::new(&format!("rule {rule}"), &all_due, &impossible),
            )
        };
        let all = 0..NUMBERS as u32;
        let not_11: Vec<u32> = all.filter(|number| *number != 11).collect();
        Played {
            rules: RULES.into_iter().map(tally).collect(),
            other: Tally::new("another rule", &[11], &not_11),
            wide: Checklist::new("rule numbers past a byte", WIDE),
            budgets: Budgets::default(),
            lengths: Lengths::default(),
            situations: Situations::default(),
            counts: Counts::default(),
            high_bytes: HighBytes::default(),
            integers: Integers::default(),
            places: Places::default(),
            steps: Steps::default(),
        }
    }

    /// What is wrong with these counts, in words.
    pub fn complaints(&self) -> Vec<String> {
        let tallies = self.tallies();
        let answers = tallies.iter().flat_map(|tally| tally.complaints());
        let others = [
            self.wide.complaints(),
            self.budgets.complaints(),
            self.lengths.complaints(),
            self.situations.complaints(),
            self.counts.complaints(),
            self.high_bytes.complaints(),
            self.integers.complaints(),
            self.places.complaints(),
            self.steps.complaints(),
        ];
        answers.chain(others.concat()).collect()
    }

    pub fn tallies(&self) -> Vec<&Tally> {
        let rules = self.rules.iter().map(|(_, tally)| tally);
        rules.chain([&self.other]).collect()
    }

    /// The counts, line by line, without the tallies.
    pub fn lines(&self) -> Vec<String> {
        let heads = [
            self.wide.to_string(),
            self.budgets.to_string(),
            self.lengths.line(),
        ];
        let others = [
            self.situations.lines(),
            vec![self.counts.line()],
            self.high_bytes.lines(),
            self.integers.lines(),
            self.places.lines(),
            self.steps.lines(),
        ];
        [heads.to_vec(), others.concat()].concat()
    }

    /// Plays a run on this runner and on the second one, and counts it.
    fn play(&mut self, runner: Runner, run: Run) -> Result<(), Box<Difference>> {
        let (rule, call) = (run.rule, Call::Run(run));
        let seen = call.compare_to(Runners {
            run: runner,
            ..Runners::PROVED
        })?;
        self.count(rule, &call, &seen);
        Ok(())
    }

    /// Counts a run under this rule by what is seen of it.
    fn count(&mut self, rule: u32, call: &Call, seen: &Seen) {
        let found = self.rules.iter_mut().find(|(own, _)| *own == rule);
        let tally = found.map_or(&mut self.other, |(_, tally)| tally);
        tally.count(seen.answer.number);
        self.wide.count(rule);
        self.high_bytes.count(call, seen.answer);
        self.places.count(call, seen.answer);
        let followed = match call {
            Call::Run(run) => Followed::of(run, seen.answer),
            _ => None,
        };
        if let Some(followed) = followed {
            self.steps.count(&followed);
            self.situations.count(&followed, seen);
        }
        if seen.answer.number == 0 {
            self.integers.count(seen.output());
            self.counts.count(seen.output());
        }
    }

    /// Counts what a run is given beside what it needs.
    fn count_given(&mut self, run: &Run, ample: &Ample) {
        if !ample.took_place() {
            return;
        }
        self.budgets.count(run.budget, ample.answer.steps);
        if let Some(writes) = ample.writes {
            self.lengths.count(run.journal_length, writes);
        }
    }
}

/// Plays so many pairs of sheets, each under every rule.
pub fn play(seed: u64, count: u64) -> Result<Played, Box<Difference>> {
    play_by(proved::run, seed, count)
}

/// Plays them with this runner in place of the proved one.
pub fn play_by(runner: Runner, seed: u64, count: u64) -> Result<Played, Box<Difference>> {
    let mut played = Played::new();
    let spare = &mut Spare::default();
    for case in 0..count {
        let random = &mut Random::of_case(seed, case);
        let (store, programme) = random_sheets(random);
        for (rule, _, _) in RULES {
            let mut run = plain_run(&store, &programme, rule);
            let ample = Ample::of(&run, spare);
            run.budget = random_budget(random, ample.answer);
            run.journal_length = random_length(random, ample.writes);
            played.count_given(&run, &ample);
            change_arguments(random, &mut run);
            played.play(runner, run)?;
        }
    }
    for run in long_runs(seed, count) {
        played.play(runner, run)?;
    }
    Ok(played)
}

/// A store sheet and a programme sheet, mostly good ones.
pub fn random_sheets(random: &mut Random) -> (Vec<u8>, Vec<u8>) {
    let store = Store::random(random);
    let sheet = store.sheet();
    match random.below(20) {
        0 => {
            let programme = random_programme(random, &store);
            (damaged(random, &sheet), programme)
        }
        1 => {
            let flawed = flawed_store_sheet(random).bytes;
            (flawed, good_programme(random, &store).bytes)
        }
        2 => (sheet.bytes, random_programme(random, &store)),
        3 => (sheet.bytes, programme_at_limit(random, &store).bytes),
        4 | 5 => (sheet.bytes, large_programme(random, &store).bytes),
        6..=8 => endorsed_sheets(random),
        _ => (sheet.bytes, good_programme(random, &store).bytes),
    }
}

/// Good sheets in which much depends on floors.
pub fn endorsed_sheets(random: &mut Random) -> (Vec<u8>, Vec<u8>) {
    let store = Store::with_unrelated(random);
    let care = Care {
        labels: random.pick(&[100, 70, 0]),
        branches: random.pick(&[100, 70, 0]),
        ..Care::FULL
    };
    let blocks = Author::new(random, &store, care).endorsed_programme();
    (store.bytes(), programme_sheet(&blocks).bytes)
}

/// Now and then another length of the output, and any rule number.
fn change_arguments(random: &mut Random, run: &mut Run) {
    if random.one_in(20) {
        run.output_length = other_length(random, run.output_length);
    }
    if random.one_in(30) {
        run.rule = other_rule(random);
    }
}

/// Near the right one, or without the counts, or nothing.
fn other_length(random: &mut Random, right: usize) -> usize {
    match random.below(6) {
        0 => right.saturating_sub(1),
        1 => right + 1,
        2 => right.saturating_sub(Record::WIDTH),
        3 => right + Record::WIDTH,
        4 => right / Record::WIDTH * Value::WIDTH,
        _ => 0,
    }
}

#[cfg(test)]
mod tests;
