//! Runs in stretches: each is cut at its steps and carried on from each cut, and comes
//! to the same bytes as the run that never paused. Both runners play every stretch.
//!
//! Checkpoints are damaged too, and carried on from under other rules and budgets and
//! with buffers of other lengths.

mod cuts;
mod damage;
mod played;
mod rising;

pub use self::played::Played;

use std::fmt::{self, Display, Formatter};

use self::damage::Damage;
use self::rising::rising_sheets;
use crate::ample::plain_run;
use crate::budgets::{random_budget, MOST_BUDGET};
use crate::calls::{Call, Difference, Run, Runners, Seen, Stretch, StretchRunner};
use crate::checkpoints::{steps_so_far, Checkpoint, Place};
use crate::outputs::Record;
use crate::play_runs::{random_sheets, RULES};
use crate::random::Random;
use crate::rule_numbers::other_rule;

/// Why the play stopped.
#[derive(Debug, Clone)]
pub enum Stopped {
    Differs(Box<Difference>),
    /// Two ways to play a run that should come to the same.
    Parts(Box<Parting>),
}

/// What came to other bytes, in words, with the calls and what is seen of them.
#[derive(Debug, Clone)]
pub struct Parting {
    words: &'static str,
    calls: [(Call, Seen); 2],
}

impl Display for Parting {
    fn fmt(&self, out: &mut Formatter) -> fmt::Result {
        writeln!(out, "{}:", self.words)?;
        for (call, seen) in &self.calls {
            write!(out, "{call}")?;
            writeln!(out, "proved runner: {seen}")?;
        }
        Ok(())
    }
}

impl From<Box<Difference>> for Stopped {
    fn from(difference: Box<Difference>) -> Stopped {
        Stopped::Differs(difference)
    }
}

/// Plays a stretch and tells what is seen of it, unless something is wrong with it by
/// itself.
pub trait Player: Fn(&Stretch) -> Result<Seen, Box<Difference>> {}

impl<F: Fn(&Stretch) -> Result<Seen, Box<Difference>>> Player for F {}

/// Plays on this runner and on the second one.
pub fn on_both(runner: StretchRunner) -> impl Player {
    let runners = Runners {
        stretch: runner,
        ..Runners::PROVED
    };
    move |stretch: &Stretch| Call::Stretch(stretch.clone()).compare_to(runners)
}

/// Plays so many pairs of sheets, each under one of the rules.
pub fn play(seed: u64, count: u64) -> Result<Played, Stopped> {
    play_on(on_both(Runners::PROVED.stretch), seed, count)
}

/// Plays them with this player.
pub fn play_on(player: impl Player, seed: u64, count: u64) -> Result<Played, Stopped> {
    let mut played = Played::new();
    for case in 0..count {
        let random = &mut Random::of_case(seed, case);
        let (store, programme) = match random.one_in(20) {
            true => rising_sheets(random),
            false => random_sheets(random),
        };
        let (rule, _, _) = random.pick(&RULES);
        let run = plain_run(&store, &programme, rule);
        let first = first_of(&run);
        let whole = played.play(&player, &first)?;
        played.same_as_run(&run, &first, &whole)?;
        let checkpoints = played.cut(&player, random, &first, &whole)?;
        played.carry_on_anyhow(&player, random, &first, &checkpoints)?;
        played.start_anyhow(&player, random, &first, &whole)?;
    }
    Ok(played)
}

/// The first stretch of a run.
pub fn first_of(run: &Run) -> Stretch {
    Stretch {
        store: run.store.clone(),
        programme: run.programme.clone(),
        rule: run.rule,
        budget: run.budget,
        old: None,
        output_length: run.output_length,
        pause_length: Place::WIDTH,
    }
}

impl Played {
    /// Plays a stretch and counts it.
    fn play(&mut self, player: &impl Player, stretch: &Stretch) -> Result<Seen, Stopped> {
        let seen = player(stretch)?;
        self.count(stretch, &seen);
        Ok(seen)
    }

    /// With a journal that is long enough a run answers and writes the same, but for
    /// what 17 writes.
    fn same_as_run(&mut self, run: &Run, first: &Stretch, whole: &Seen) -> Result<(), Stopped> {
        let call = Call::Run(run.clone());
        let seen = call.compare()?;
        let finished = whole.answer.number == 0;
        if whole.answer == seen.answer && (!finished || whole.output() == seen.output()) {
            return Ok(());
        }
        Err(parting(
            "a run and its stretch come to something else",
            [(call, seen), (Call::Stretch(first.clone()), whole.clone())],
        ))
    }

    /// Checkpoints as they are and damaged, under any rule, with any budget and with
    /// buffers of any length. Where there is none, some bytes.
    fn carry_on_anyhow(
        &mut self,
        player: &impl Player,
        random: &mut Random,
        first: &Stretch,
        checkpoints: &[Checkpoint],
    ) -> Result<(), Stopped> {
        const TIMES: usize = 8;
        for _ in 0..TIMES {
            let good = match checkpoints {
                [] => some_bytes(random, first.output_length),
                _ => checkpoints[random.below(checkpoints.len())].clone(),
            };
            let damaged = !checkpoints.is_empty() && random.percent(70);
            let damage = damaged.then(|| Damage::random(random));
            let from = match damage {
                Some(damage) => damage.done(random, first, &good),
                None => good,
            };
            let steps = steps_so_far(&from.pause);
            let mut next = first.next(from, budget_beside(random, steps));
            next.rule = random.pick(&RULES).0;
            change_arguments(random, &mut next);
            let seen = self.play(player, &next)?;
            if let Some(damage) = damage {
                self.count_damage(damage, seen.answer.number);
            }
            self.count_change(first, &next, &seen);
        }
        Ok(())
    }

    /// The first stretch with any budget and with buffers of any length.
    fn start_anyhow(
        &mut self,
        player: &impl Player,
        random: &mut Random,
        first: &Stretch,
        whole: &Seen,
    ) -> Result<(), Stopped> {
        let mut other = first.clone();
        other.budget = random_budget(random, whole.answer);
        change_arguments(random, &mut other);
        self.play(player, &other).map(drop)
    }
}

fn parting(words: &'static str, calls: [(Call, Seen); 2]) -> Stopped {
    Stopped::Parts(Box::new(Parting { words, calls }))
}

/// Buffers of the right lengths, mostly zeros.
fn some_bytes(random: &mut Random, output: usize) -> Checkpoint {
    let mut checkpoint = Checkpoint {
        output: vec![0; output],
        pause: vec![0; Place::WIDTH],
    };
    let place = random.below(Place::WIDTH);
    checkpoint.pause[place] = random.pick(&[0, 0, 1, 255]);
    checkpoint
}

/// Below the steps so far, as many, a few more or enough.
fn budget_beside(random: &mut Random, steps: u32) -> u32 {
    const ENOUGH: u32 = 3_000;
    let wanted = match random.below(20) {
        0 => random.below(steps.min(ENOUGH) as usize + 1) as u32,
        1 => steps,
        2 => steps.saturating_sub(1),
        3..=5 => steps.saturating_add(1),
        6..=8 => steps.saturating_add(random.below(12) as u32),
        9 if random.one_in(4) => random.pick(&[MOST_BUDGET + 1, u32::MAX]),
        _ => return steps.saturating_add(ENOUGH).min(MOST_BUDGET),
    };
    match wanted == u32::MAX || wanted == MOST_BUDGET + 1 {
        true => wanted,
        false => wanted.min(MOST_BUDGET),
    }
}

/// Now and then a rule number that there is not, or another length of a buffer.
fn change_arguments(random: &mut Random, stretch: &mut Stretch) {
    if random.one_in(40) {
        stretch.rule = other_rule(random);
    }
    if !random.one_in(12) {
        return;
    }
    match (random.below(4), &mut stretch.old) {
        (0, Some(old)) => {
            let length = other_length(random, old.output.len());
            old.output.resize(length, 0);
        }
        (1, Some(old)) => {
            let length = other_length(random, old.pause.len());
            old.pause.resize(length, 0);
        }
        (0 | 2, _) => stretch.output_length = other_length(random, stretch.output_length),
        _ => stretch.pause_length = other_length(random, stretch.pause_length),
    }
}

fn other_length(random: &mut Random, right: usize) -> usize {
    match random.below(5) {
        0 => right.saturating_sub(1),
        1 => right + 1,
        2 => right.saturating_sub(Record::WIDTH),
        3 => right + Record::WIDTH,
        _ => 0,
    }
}

#[cfg(test)]
mod tests;
