//! What is to be run: both sheets, with the names that texts give and the files
//! that they came from.

use std::ffi::{OsStr, OsString};

use inspect::StoreRead;
use model::{Names, Store};
use notation::Assembled;

use crate::agreement::Beside;
use crate::blocks;
use crate::checkpoint::{Kept, SheetStarts};
use crate::ending::Failure;
use crate::files;
use crate::hints;
use crate::input::{assembled, Content, Input, Taken};
use crate::options::{split, Given};
use crate::sources::{Bytes, Sources};
use crate::streams::Streams;

#[derive(Debug, Clone, Default)]
pub struct Job {
    pub store: Vec<u8>,
    pub programme: Vec<u8>,
    pub names: Names,
    pub sources: Sources,
    /// What may have been meant, where the store sheet is refused.
    pub hint: Option<String>,
}

/// A file by its name, and what it says.
struct Part {
    name: String,
    what: What,
}

enum What {
    Text(Box<Assembled>),
    Sheets(Vec<u8>),
}

impl Job {
    /// Of the files of a command, with the blocks that are put in.
    pub fn load(given: &Given, streams: &mut Streams) -> Result<Job, Failure> {
        let taken = Taken::of(given)?;
        once(given)?;
        let mut parts = vec![];
        for file in &given.files {
            parts.push(part(file, taken, streams)?);
        }
        let mut parts = parts.into_iter();
        let mut job = match (parts.next(), parts.next()) {
            (Some(both), None) => Job::of_one(both, given)?,
            (Some(one), Some(other)) => Job::of_two(one, other)?,
            _ => return Err(given.wrong("which file?")),
        };
        job.put_in(given, streams)?;
        Ok(job)
    }

    /// Puts in the blocks that are asked for, and notes where they went.
    pub fn put_in(&mut self, given: &Given, streams: &mut Streams) -> Result<(), Failure> {
        for note in blocks::put_in(self, given)? {
            streams.note(&note);
        }
        Ok(())
    }

    /// The sheets that a checkpoint file has; there are no names.
    pub fn of_checkpoint(file: &str, kept: &Kept, starts: SheetStarts) -> Job {
        let mut job = Job::default();
        job.take_store_sheet(Bytes::new(file, starts.store), kept.store.clone());
        let programme = Bytes::new(file, starts.programme);
        job.take_programme_sheet(programme, kept.programme.clone());
        job
    }

    /// One file that has a store and a programme. Where blocks are put in, it may
    /// do without a programme.
    fn of_one(part: Part, given: &Given) -> Result<Job, Failure> {
        let Part { name, what } = part;
        let with_blocks = given.has("--block");
        let mut job = Job::default();
        match what {
            What::Sheets(bytes) => job.take_sheets(&name, &bytes, given)?,
            What::Text(mut text) => {
                if text.programme.is_none() && with_blocks {
                    text.programme = Some(no_blocks()?);
                }
                match (&text.store, &text.programme) {
                    (None, _) => return Err(lacks(&name, "store", "programme")),
                    (_, None) => return Err(lacks(&name, "programme", "store")),
                    _ => (),
                }
                job.take_text(&name, *text);
            }
        }
        job.sources.files = vec![name];
        Ok(job)
    }

    /// Both sheets of one file. The printing program takes a store alone for one with
    /// a programme that is too short, so that is left to it.
    fn take_sheets(&mut self, name: &str, bytes: &[u8], given: &Given) -> Result<(), Failure> {
        let (store, programme) = inspect::split(bytes);
        let is_alone = programme.is_empty() && inspect::store_model(store).is_some();
        let programme = match is_alone {
            true if given.has("--block") => no_blocks()?,
            true if !given.has("--plain") => return Err(ends_after_store(name)),
            _ => programme.to_vec(),
        };
        self.hint = hints::printing_input(name, bytes);
        self.take_store_sheet(Bytes::new(name, 0), store.to_vec());
        self.take_programme_sheet(Bytes::new(name, store.len()), programme);
        Ok(())
    }

    /// A store and a programme in two files.
    fn of_two(one: Part, other: Part) -> Result<Job, Failure> {
        let (store, programme) = in_order(one, other)?;
        let mut job = Job::default();
        if let (What::Sheets(one), What::Sheets(other)) = (&store.what, &programme.what) {
            job.hint = hints::swapped((&store.name, one), (&programme.name, other));
        }
        job.sources.files = vec![programme.name.clone(), store.name.clone()];
        match store.what {
            What::Sheets(bytes) => job.take_store_sheet(Bytes::new(&store.name, 0), bytes),
            What::Text(text) => job.take_text(&store.name, *text),
        }
        match programme.what {
            What::Sheets(bytes) => {
                job.take_programme_sheet(Bytes::new(&programme.name, 0), bytes);
            }
            What::Text(assembled) => {
                let beside = Beside {
                    store_name: &store.name,
                    store: &job.store,
                    store_names: &job.names,
                    name: &programme.name,
                    assembled: &assembled,
                };
                beside.agree()?;
                job.take_text(&programme.name, *assembled);
            }
        }
        Ok(job)
    }

    fn take_store_sheet(&mut self, source: Bytes, sheet: Vec<u8>) {
        self.store = sheet;
        self.sources.store = Some(source);
    }

    fn take_programme_sheet(&mut self, source: Bytes, sheet: Vec<u8>) {
        self.sources.programme_sheet(source, &sheet);
        self.programme = sheet;
    }

    /// What the text has of a store and a programme, and its names where there
    /// are none yet.
    fn take_text(&mut self, file: &str, text: Assembled) {
        let Assembled {
            store,
            programme,
            names,
            places,
            ..
        } = text;
        if let Some(store) = store {
            self.store = store;
        }
        if let Some(programme) = programme {
            let blocks = blocks::starts(&programme).len();
            self.sources.programme_text(file, places, blocks);
            self.programme = programme;
            self.names.blocks = names.blocks;
        }
        if self.names.principals.is_empty() {
            self.names.principals = names.principals;
            self.names.slots = names.slots;
        }
    }

    /// What can be read of the store sheet.
    pub fn store_read(&self) -> StoreRead {
        inspect::store(&self.store, &self.names)
    }

    /// The store, if its sheet is good.
    pub fn store_model(&self) -> Option<Store> {
        inspect::store_model(&self.store)
    }

    /// The numbers of the principals that the store sheet says there are.
    pub fn principals(&self) -> impl Iterator<Item = usize> + use<> {
        let sizes = self.store_read().sizes;
        0..sizes.map_or(0, |sizes| sizes.principals)
    }

    pub fn place(&self, block: usize, offset: usize) -> String {
        self.sources.place(block, offset)
    }
}

fn part(file: &OsStr, taken: Taken, streams: &mut Streams) -> Result<Part, Failure> {
    let input = Input::read(file, taken)?;
    if let Some(doubt) = &input.doubt {
        streams.note(doubt);
    }
    let name = input.name;
    let what = match input.content {
        Content::Text(text) => What::Text(Box::new(assembled(&name, &text)?)),
        Content::Sheets(bytes) => What::Sheets(bytes),
    };
    Ok(Part { name, what })
}

/// A programme sheet with no block.
pub fn no_blocks() -> Result<Vec<u8>, Failure> {
    let sheet = notation::programme_bytes(&model::Programme::default());
    sheet.map_err(|error| Failure::told(error.to_string()))
}

/// The one of two files that has the store, and the other. Of two sheets the store
/// is the first.
fn in_order(one: Part, other: Part) -> Result<(Part, Part), Failure> {
    for (text, beside) in [(&one, &other), (&other, &one)] {
        if matches!(&text.what, What::Text(text) if text.store.is_some() && text.programme.is_some())
        {
            return Err(Failure::told(format!(
                "{} has a store and a programme, so there is nothing to take from {}",
                text.name, beside.name
            )));
        }
    }
    let store_first = match (has_store(&one), has_store(&other)) {
        (Some(true), Some(true)) => return Err(both(&one, &other, "store", "programme")),
        (Some(false), Some(false)) => return Err(both(&one, &other, "programme", "store")),
        (Some(store), _) => store,
        (None, Some(store)) => !store,
        (None, None) => true,
    };
    Ok(match store_first {
        true => (one, other),
        false => (other, one),
    })
}

/// Whether a text has a store, or else a programme; a sheet may be either.
fn has_store(part: &Part) -> Option<bool> {
    match &part.what {
        What::Text(text) => Some(text.store.is_some()),
        What::Sheets(_) => None,
    }
}

fn both(one: &Part, other: &Part, have: &str, lack: &str) -> Failure {
    let (one, other) = (&one.name, &other.name);
    Failure::told(format!(
        "{one} and {other} both have a {have}, and neither has a {lack}"
    ))
}

fn ends_after_store(name: &str) -> Failure {
    Failure::told(format!(
        "{name} ends after its store sheet, and has no programme: give the file with the programme too"
    ))
}

fn lacks(name: &str, what: &str, has: &str) -> Failure {
    Failure::told(format!(
        "{name} has no {what}, only a {has}: give the file with the {what} too"
    ))
}

/// Standard input can be read once.
pub fn once(given: &Given) -> Result<(), Failure> {
    let files = given.files.iter().map(OsString::as_os_str);
    let blocks = given.values("--block").filter_map(|block| split(block).1);
    let others = ["--resume", "--store"].into_iter();
    let others = others.filter_map(|name| given.value(name));
    let all = files.chain(blocks).chain(others);
    match all.filter(|file| *file == files::STANDARD_INPUT).count() {
        0 | 1 => Ok(()),
        _ => Err(given.wrong("standard input can be read once")),
    }
}
