//! Runs in slices, with checkpoints.

use std::ffi::OsString;

use muntyzhap::MOST_BUDGET;

use crate::call::{Call, Came, Way};
use crate::checkpoint::Paused;
use crate::ending::{Ended, Failure, Status};
use crate::files;
use crate::interrupt;
use crate::options::Given;
use crate::place::{self, carry_on};
use crate::reasons::Known;
use crate::run::{answer, played, refused};
use crate::settings::Settings;
use crate::setup::Setup;
use crate::streams::Streams;

/// Runs a slice at a time up to the budget, or in one go if there are no slices.
pub fn run(given: &Given, setup: &Setup, settings: &Settings, streams: &mut Streams) -> Ended {
    let opening = setup.kept(&setup.call().room()).to_bytes();
    let pausable = Pausable {
        given,
        setup,
        place: place::find(given, settings, &opening)?,
    };
    if settings.slice.is_some() {
        interrupt::watch();
    }
    let known = Known::of(&setup.job, setup.rule);
    let mut last = setup.from.clone();
    loop {
        let steps = last.as_ref().map_or(0, Paused::steps);
        let budget = next_budget(setup.budget, steps, settings.slice);
        let call = Call {
            budget,
            way: Way::Stretch(last.as_ref()),
            ..setup.call()
        };
        let came = played(&setup.job, &call, settings.trace, streams)?;
        if !came.spent() || budget >= setup.budget {
            return pausable.end(budget, &came, streams);
        }
        let (steps, block) = (came.answer.steps, known.block(came.answer.block));
        streams.note(&format!("{steps} of {} steps, {block}", setup.budget));
        if interrupt::asked() {
            return pausable.pause(&came, streams);
        }
        last = Some(came.left);
    }
}

/// The budget of the next slice. One that is too large is the library's to refuse,
/// at once.
fn next_budget(budget: u32, steps: u32, slice: Option<u32>) -> u32 {
    match slice {
        Some(slice) if budget <= MOST_BUDGET => budget.min(steps.saturating_add(slice)),
        _ => budget,
    }
}

/// A run that can be paused, and where it is kept.
struct Pausable<'a> {
    given: &'a Given,
    setup: &'a Setup,
    place: OsString,
}

impl Pausable<'_> {
    /// The last slice: however many there were, what it came to is what the run
    /// comes to in one go, and is told so.
    fn end(&self, budget: u32, came: &Came, streams: &mut Streams) -> Ended {
        let setup = self.setup;
        let whole = Call {
            budget,
            ..setup.call()
        };
        if !came.spent() {
            return answer(setup, &whole, came, streams);
        }
        // What is kept is safe before anything else can fail.
        let kept = self.keep(came);
        streams.say(&refused(setup, &whole, came, kept.is_ok())?)?;
        kept?;
        let steps = came.answer.steps;
        streams.say(&match steps < MOST_BUDGET {
            true => format!(
                "paused after {steps} steps: carry on with: {}\n",
                carry_on(self.given, &self.place, Some(steps))
            ),
            false => format!(
                "paused after {steps} steps, the most that a run has; it is kept in {}\n",
                self.place.to_string_lossy()
            ),
        })?;
        Ok(Status::Refused)
    }

    /// A pause that was asked for.
    fn pause(&self, came: &Came, streams: &mut Streams) -> Ended {
        let (kept, steps) = (self.keep(came), came.answer.steps);
        let then = match kept {
            Ok(()) => format!("carry on with: {}", carry_on(self.given, &self.place, None)),
            Err(_) => "it is not kept".to_string(),
        };
        streams.say(&format!("paused after {steps} steps: {then}\n"))?;
        kept?;
        Ok(Status::Refused)
    }

    /// Writes the checkpoint.
    fn keep(&self, came: &Came) -> Result<(), Failure> {
        let bytes = self.setup.kept(&came.left).to_bytes();
        files::write(&self.place, &bytes).map_err(|failure| match failure {
            Failure::Told(words) => {
                Failure::told(format!("the checkpoint could not be written: {words}"))
            }
            other => other,
        })
    }
}

#[cfg(test)]
mod tests {
    use super::*;

    #[test]
    fn a_slice_ends_at_the_budget() {
        let cases = [
            ((1000, 0, Some(300)), 300),
            ((1000, 900, Some(300)), 1000),
            ((1000, 5000, Some(300)), 1000),
            ((1000, u32::MAX, Some(1)), 1000),
            ((1000, 0, None), 1000),
            ((MOST_BUDGET + 1, 0, Some(300)), MOST_BUDGET + 1),
        ];
        for ((budget, steps, slice), expected) in cases {
            assert_eq!(next_budget(budget, steps, slice), expected);
        }
    }
}
