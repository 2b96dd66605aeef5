//! Runners that are wrong about the journal or the counts, or about stretches, made of
//! the second one. The play of runs, or that of stretches, has to tell each of them.

mod finishing;
mod judging;
mod refusing;
mod stretching;

use crate::calls::{Runner, Stretch, StretchRunner};
use crate::play_runs::play_by;
use crate::play_stretches::{on_both, play_on, Stopped};
use crate::DEFAULT_SEED;

/// As many pairs of sheets as show every fault.
const ENOUGH: u64 = 2_000;

/// Who tells that a runner is wrong.
#[derive(Debug, Clone, Copy, PartialEq, Eq)]
enum Told {
    /// What it leaves is wrong by itself.
    Bytes,
    /// It differs from the second runner.
    Difference,
    /// Two ways to play a run come to other bytes.
    Cutting,
}

/// A play of so many pairs of sheets stops at this runner.
fn assert_told(name: &str, runner: Runner, count: u64, expected: Told) {
    let Err(difference) = play_by(runner, DEFAULT_SEED, count) else {
        panic!("{name}: nothing is told");
    };
    let told = match difference.fault() {
        Some(_) => Told::Bytes,
        None => Told::Difference,
    };
    assert_eq!(told, expected, "{name}: {}", difference.shrunk());
}

#[test]
fn what_a_refused_run_leaves_is_told() {
    for (name, runner) in refusing::ALL {
        assert_told(name, runner, ENOUGH, Told::Bytes);
    }
}

#[test]
fn what_a_finished_run_leaves_is_told() {
    for (name, runner) in finishing::ALL {
        assert_told(name, runner, ENOUGH, Told::Bytes);
    }
}

/// Long runs alone have such counts.
#[test]
fn counts_that_are_cut_are_told() {
    for (name, runner) in finishing::CUT {
        assert_told(name, runner, 0, Told::Bytes);
    }
}

#[test]
fn another_order_in_a_step_is_told() {
    for (name, runner) in judging::ALL {
        assert_told(name, runner, ENOUGH, Told::Difference);
    }
}

/// As many pairs of sheets as show every fault of stretches.
const ENOUGH_STRETCHES: u64 = 200;

fn told_of(stopped: &Stopped) -> Told {
    match stopped {
        Stopped::Differs(difference) if difference.fault().is_some() => Told::Bytes,
        Stopped::Differs(_) => Told::Difference,
        Stopped::Parts(_) => Told::Cutting,
    }
}

/// A play of stretches with this runner for the proved one stops.
fn assert_stretches_told(runners: &[(&str, StretchRunner)], expected: Told) {
    for (name, runner) in runners {
        let Err(stopped) = play_on(on_both(*runner), DEFAULT_SEED, ENOUGH_STRETCHES) else {
            panic!("{name}: nothing is told");
        };
        assert_eq!(told_of(&stopped), expected, "{name}: {stopped:?}");
    }
}

#[test]
fn what_a_stretch_leaves_is_told() {
    assert_stretches_told(&stretching::LEAVING, Told::Bytes);
}

#[test]
fn another_judging_of_checkpoints_is_told() {
    assert_stretches_told(&stretching::JUDGING, Told::Difference);
}

/// Were both runners wrong alike, and nothing looked at but where they end, cutting a
/// run would show it.
#[test]
fn what_is_carried_on_elsewhere_is_told_by_cutting() {
    for (name, runner) in stretching::CARRYING {
        let alone = |stretch: &Stretch| Ok(stretch.by(runner));
        let Err(stopped) = play_on(alone, DEFAULT_SEED, ENOUGH_STRETCHES) else {
            panic!("{name}: nothing is told");
        };
        assert_eq!(told_of(&stopped), Told::Cutting, "{name}");
    }
}
