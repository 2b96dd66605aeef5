//! What a run starts with: its sheets, its rule and budget, and where it is
//! carried on from.

use std::ffi::OsStr;

use crate::call::{Call, Way};
use crate::checkpoint::{Kept, Paused};
use crate::ending::Failure;
use crate::files;
use crate::job::Job;
use crate::options::Given;
use crate::settings::{rule_name, Settings};
use crate::streams::Streams;

pub struct Setup {
    pub job: Job,
    pub rule: u32,
    pub budget: u32,
    /// None at the opening.
    pub from: Option<Paused>,
    /// The checkpoint file that it comes from, by its name.
    pub resumed: Option<Resumed>,
    /// The journal's entries, if one is kept.
    pub entries: Option<usize>,
}

/// A checkpoint file, and what of the call is its own.
pub struct Resumed {
    pub file: String,
    pub gives_rule: bool,
    pub gives_budget: bool,
}

impl Setup {
    pub fn of(given: &Given, settings: &Settings, streams: &mut Streams) -> Result<Setup, Failure> {
        let files = given.files.len();
        if files > 2 {
            return Err(given.wrong("at most two files are run, a store and a programme"));
        }
        let Some(resume) = &settings.resume else {
            if files == 0 {
                return Err(given.wrong("which file? `-` is standard input"));
            }
            return Ok(Setup {
                job: Job::load(given, streams)?,
                rule: settings.rule(),
                budget: settings.budget(),
                from: None,
                resumed: None,
                entries: settings.entries,
            });
        };
        let (job, kept) = resumed(given, resume, streams)?;
        note_changes(settings, &kept, streams);
        Ok(Setup {
            job,
            rule: settings.rule.unwrap_or(kept.rule),
            budget: settings.budget.unwrap_or(kept.budget),
            from: Some(kept.paused),
            resumed: Some(Resumed {
                file: files::name(resume),
                gives_rule: settings.rule.is_none(),
                gives_budget: settings.budget.is_none(),
            }),
            entries: None,
        })
    }

    /// The run in one go, from where it starts.
    pub fn call(&self) -> Call<'_> {
        let stretch = Way::Stretch(self.from.as_ref());
        let way = self.entries.map_or(stretch, Way::Journalled);
        Call {
            store: &self.job.store,
            programme: &self.job.programme,
            rule: self.rule,
            budget: self.budget,
            way,
        }
    }

    /// A checkpoint file of this run, paused there.
    pub fn kept(&self, paused: &Paused) -> Kept {
        Kept {
            rule: self.rule,
            budget: self.budget,
            store: self.job.store.clone(),
            programme: self.job.programme.clone(),
            paused: paused.clone(),
        }
    }
}

/// The sheets and the checkpoint of a run that is carried on.
fn resumed(given: &Given, resume: &OsStr, streams: &mut Streams) -> Result<(Job, Kept), Failure> {
    let name = files::name(resume);
    let read = Kept::from_bytes(&files::read(resume)?);
    let wrong = |words| Failure::told(format!("{name}: no checkpoint to carry on from: {words}"));
    let (kept, starts) = read.map_err(wrong)?;
    if !given.files.is_empty() {
        let job = Job::load(given, streams)?;
        same_sheets(&job, &kept, &name)?;
        return Ok((job, kept));
    }
    if given.has("--block") {
        return Err(given.wrong("--block: give the file with the programme too"));
    }
    Ok((Job::of_checkpoint(&name, &kept, starts), kept))
}

fn same_sheets(job: &Job, kept: &Kept, name: &str) -> Result<(), Failure> {
    let (store, programme) = (job.store == kept.store, job.programme == kept.programme);
    let differs = match (store, programme) {
        (true, true) => return Ok(()),
        (false, true) => "the store differs",
        // Nothing in the checkpoint says whether blocks were put in.
        (true, false) => "the programme differs (give the same --block)",
        (false, false) => "store and programme differ",
    };
    Err(Failure::told(format!(
        "{name} is a checkpoint of another run: {differs}; without the file, its own sheets are run"
    )))
}

fn note_changes(settings: &Settings, kept: &Kept, streams: &mut Streams) {
    if let Some(rule) = settings.rule.filter(|rule| *rule != kept.rule) {
        let (new, old) = (rule_name(rule), rule_name(kept.rule));
        streams.note(&format!(
            "carried on under rule {new}; it was {old} until the pause"
        ));
    }
    if let Some(budget) = settings.budget.filter(|budget| *budget != kept.budget) {
        let old = kept.budget;
        streams.note(&format!(
            "carried on with budget {budget}; it was {old} until the pause"
        ));
    }
}
