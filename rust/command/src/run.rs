//! `muntyzhap run` and `muntyzhap explain`.

use model::count;
use muntyzhap::sheet::end_store;

use crate::call::{held, Call, Came, Way};
use crate::ending::{Ended, Failure, Status};
use crate::job::Job;
use crate::options::Given;
use crate::plain::{self, LENT_ENTRIES};
use crate::reasons::{self, Around, Known};
use crate::settings::Settings;
use crate::setup::Setup;
use crate::slices;
use crate::streams::Streams;
use crate::table::table;

/// Runs, and prints the answer with the end store or why it was refused.
pub fn run(given: &Given, streams: &mut Streams) -> Ended {
    let settings = Settings::of(given)?;
    let mut setup = Setup::of(given, &settings, streams)?;
    if settings.plain {
        return print_plain(&mut setup, &settings, streams);
    }
    if settings.in_stretches() {
        return slices::run(given, &setup, &settings, streams);
    }
    let call = setup.call();
    let came = played(&setup.job, &call, settings.trace, streams)?;
    answer(&setup, &call, &came, streams)
}

/// Runs, and prints why it was refused, or in a line that it was not. The second
/// runner is held to the library in either case.
pub fn explain(given: &Given, streams: &mut Streams) -> Ended {
    let settings = Settings::of(given)?;
    let setup = Setup::of(given, &settings, streams)?;
    let call = setup.call();
    let came = played(&setup.job, &call, settings.trace, streams)?;
    if !came.finished() {
        return answer(&setup, &call, &came, streams);
    }
    let (second, _) = call.by_second(&mut |_| ());
    held(&came, &second)?;
    streams.say(&format!("{}\n", finished_line(&setup.job, &came)))?;
    Ok(Status::Done)
}

/// The library's answer; with a trace, a line for each step.
pub fn played(job: &Job, call: &Call, trace: bool, streams: &mut Streams) -> Result<Came, Failure> {
    let came = call.by_library();
    if !trace {
        return Ok(came);
    }
    let known = Known::of(job, call.rule);
    let (second, _) = call.by_second(&mut |step| {
        if streams.notes() {
            streams.trace(&known.step(step));
        }
    });
    held(&came, &second)?;
    Ok(came)
}

/// Prints what a run came to.
pub fn answer(setup: &Setup, call: &Call, came: &Came, streams: &mut Streams) -> Ended {
    if came.finished() {
        streams.say(&finished(&setup.job, came))?;
        return Ok(Status::Done);
    }
    streams.say(&refused(setup, call, came, false)?)?;
    Ok(Status::Refused)
}

/// Why a run was refused, in lines, or why it was paused and kept.
pub fn refused(setup: &Setup, call: &Call, came: &Came, paused: bool) -> Result<String, Failure> {
    let (second, told) = call.by_second(&mut |_| ());
    held(came, &second)?;
    let resumed = setup.resumed.as_ref();
    let around = Around { resumed, paused };
    reasons::refusal(&setup.job, call, came, &told, around)
}

/// What the printing program prints. It is given both sheets in one, and splits
/// them where the store sheet's sizes say.
fn print_plain(setup: &mut Setup, settings: &Settings, streams: &mut Streams) -> Ended {
    let sheets = [&setup.job.store[..], &setup.job.programme].concat();
    let (store, programme) = inspect::split(&sheets);
    setup.job.store = store.to_vec();
    setup.job.programme = programme.to_vec();
    let entries = settings.entries.unwrap_or(LENT_ENTRIES);
    let call = Call {
        way: Way::Journalled(entries),
        ..setup.call()
    };
    let came = played(&setup.job, &call, settings.trace, streams)?;
    streams.say(&plain::printed(&setup.job.store, &came))?;
    if came.journal_full() && settings.entries.is_none() {
        streams.note(&plain::lent());
    }
    Ok(match came.finished() {
        true => Status::Done,
        false => Status::Refused,
    })
}

/// Such as `finished: 2 blocks, 2 steps, 2 writes`.
pub fn finished_line(job: &Job, came: &Came) -> String {
    let blocks = count(came.answer.block, "block");
    let steps = count(came.answer.steps as usize, "step");
    let writes = count(came.writes(&job.store), "write");
    format!("finished: {blocks}, {steps}, {writes}")
}

/// That line, and the end store as a table.
fn finished(job: &Job, came: &Came) -> String {
    let slots = end_store(&job.store, &came.left.out).unwrap_or_default();
    let rows = slots.iter().enumerate().map(|(number, slot)| {
        [
            job.names.slot(number),
            job.names.principal(slot.owner().into()),
            job.names.value(slot.value()),
            slot.writes().to_string(),
        ]
    });
    let rows: Vec<[String; 4]> = rows.collect();
    let line = finished_line(job, came);
    match rows.is_empty() {
        true => format!("{line}\nthe store has no slots\n"),
        false => format!(
            "{line}\n{}",
            table(["slot", "owner", "value", "writes"], &rows)
        ),
    }
}
