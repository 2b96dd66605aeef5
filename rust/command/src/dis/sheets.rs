//! The sheets that are listed, and what is known of the store that they are for.

use std::ffi::OsStr;

use inspect::{Refused, Sizes};
use model::Names;
use muntyzhap::sheet::{MOST_PRINCIPALS, MOST_SLOTS};
use notation::{Assembled, Tables};

use super::not_good;
use crate::agreement::Beside;
use crate::blocks;
use crate::ending::Failure;
use crate::hints;
use crate::input::{assembled, Content, Input, Taken};
use crate::job::{no_blocks, Job};
use crate::options::Given;
use crate::sources::{Bytes, Sources};
use crate::streams::Streams;

/// What a file has, with the store that its programme is for.
#[derive(Default)]
pub struct Sheets {
    /// Of the file itself, or of the one that `--store` names.
    pub store: Option<Vec<u8>>,
    pub store_is_own: bool,
    /// With the byte of the file at which it starts.
    pub programme: Option<(usize, Vec<u8>)>,
    /// What the text of a programme alone declares.
    pub tables: Option<Tables>,
    pub names: Names,
    /// What the file may have been meant as.
    pub hint: Option<String>,
    /// Of a programme alone.
    said: Option<Sizes>,
    sources: Sources,
}

/// What the options say of the file.
pub struct Asked<'a> {
    store: Option<&'a OsStr>,
    alone: bool,
    sizes: Option<Sizes>,
}

impl Asked<'_> {
    pub fn of(given: &Given) -> Result<Asked<'_>, Failure> {
        let alone = "--programme-only";
        let why = "a store says what a programme alone does not";
        given.not_both("--store", alone, why)?;
        let why = "the regions' names are the store's, which --store gives";
        given.not_both("--block", alone, why)?;
        let sizes = sizes(given)?;
        if sizes.is_some() && !given.has(alone) {
            return Err(given.wrong(format!("--principals and --slots go with {alone}")));
        }
        Ok(Asked {
            store: given.value("--store"),
            alone: given.has(alone),
            sizes,
        })
    }

    pub fn sheets(&self, input: Input) -> Result<Sheets, Failure> {
        match input.content {
            Content::Sheets(bytes) => self.of_bytes(&input.name, bytes),
            Content::Text(text) => self.of_text(&input.name, assembled(&input.name, &text)?),
        }
    }

    fn of_bytes(&self, name: &str, bytes: Vec<u8>) -> Result<Sheets, Failure> {
        let mut sheets = Sheets {
            said: self.sizes,
            ..Sheets::default()
        };
        let mut start = 0;
        if let Some(store) = self.store {
            let (_, store, names) = store_of(store)?;
            (sheets.store, sheets.names) = (Some(store), names);
        } else if !self.alone {
            let (store, _) = inspect::split(&bytes);
            start = store.len();
            sheets.store = Some(store.to_vec());
            sheets.store_is_own = true;
            let hint = hints::printing_input(name, &bytes);
            sheets.hint = hint.map(|hint| format!("{name}: {hint}"));
        }
        let programme = bytes.get(start..).unwrap_or_default().to_vec();
        if !(sheets.store_is_own && programme.is_empty()) {
            let source = Bytes::new(name, start);
            sheets.sources.programme_sheet(source, &programme);
            sheets.programme = Some((start, programme));
        }
        Ok(sheets)
    }

    /// The sheets that a text comes to, as they would stand in a file.
    fn of_text(&self, name: &str, text: Assembled) -> Result<Sheets, Failure> {
        let mut sheets = Sheets {
            said: self.sizes.or(text.tables.as_ref().map(table_sizes)),
            ..Sheets::default()
        };
        let needs_programme = self.alone || self.store.is_some();
        if needs_programme && text.programme.is_none() {
            return Err(Failure::told(format!("{name} has no programme")));
        }
        if let Some(store) = self.store {
            sheets.take_store(store, name, &text)?;
        }
        let Assembled {
            store,
            programme,
            tables,
            names,
            places,
        } = text;
        if !needs_programme {
            sheets.store_is_own = store.is_some();
            sheets.store = store;
        }
        match sheets.names.principals.is_empty() {
            true => sheets.names = names,
            false => sheets.names.blocks = names.blocks,
        }
        sheets.tables = tables;
        if let Some(programme) = programme {
            let number = blocks::starts(&programme).len();
            sheets.sources.programme_text(name, places, number);
            sheets.programme = Some((sheets.own_store_bytes(), programme));
        }
        Ok(sheets)
    }
}

/// How many principals and slots a programme alone is said to be for.
fn sizes(given: &Given) -> Result<Option<Sizes>, Failure> {
    let size = |name: &str, fewest: usize, most: usize| {
        let number = given.number(name)?.map(|number| number as usize);
        let fits = number.is_none_or(|number| (fewest..=most).contains(&number));
        let wrong = || given.wrong(format!("{name}: it is {fewest} to {most}"));
        fits.then_some(number).ok_or_else(wrong)
    };
    let principals = size("--principals", 1, MOST_PRINCIPALS)?;
    let slots = size("--slots", 0, MOST_SLOTS)?;
    Ok((principals.is_some() || slots.is_some()).then_some(Sizes {
        principals: principals.unwrap_or(MOST_PRINCIPALS),
        slots: slots.unwrap_or(MOST_SLOTS),
    }))
}

fn table_sizes(tables: &Tables) -> Sizes {
    Sizes {
        principals: tables.masks.len(),
        slots: tables.owners.len(),
    }
}

/// The name of a file, the store sheet in it, text or sheets, and its names. It has
/// to be good.
fn store_of(file: &OsStr) -> Result<(String, Vec<u8>, Names), Failure> {
    let Input { name, content, .. } = Input::read(file, Taken::AsItLooks)?;
    match content {
        Content::Sheets(bytes) => {
            let (store, _) = inspect::split(&bytes);
            match inspect::store(store, &Names::default()).refused {
                Some(refused) => Err(not_good(&name, "store", &refused, None)),
                None => Ok((name, store.to_vec(), Names::default())),
            }
        }
        Content::Text(text) => {
            let text = assembled(&name, &text)?;
            let lacks = || Failure::told(format!("{name} has no store"));
            // The text's programme is another one.
            let blocks = vec![];
            let names = Names {
                blocks,
                ..text.names
            };
            let store = text.store.ok_or_else(lacks)?;
            Ok((name, store, names))
        }
    }
}

impl Sheets {
    /// The store in another file than the programme's text.
    fn take_store(&mut self, file: &OsStr, name: &str, text: &Assembled) -> Result<(), Failure> {
        let (store_name, store, names) = store_of(file)?;
        if text.store.is_some() {
            return Err(Failure::told(format!(
                "{name} has a store and a programme, so there is nothing to take from {store_name}"
            )));
        }
        let beside = Beside {
            store_name: &store_name,
            store: &store,
            store_names: &names,
            name,
            assembled: text,
        };
        beside.agree()?;
        (self.store, self.names) = (Some(store), names);
        Ok(())
    }

    fn own_store_bytes(&self) -> usize {
        let own = self.store.as_ref().filter(|_| self.store_is_own);
        own.map_or(0, Vec::len)
    }

    /// Puts in the blocks that are asked for, as a run does.
    pub fn put_in(&mut self, given: &Given, streams: &mut Streams) -> Result<(), Failure> {
        if !given.has("--block") {
            return Ok(());
        }
        let Some(store) = self.store.clone() else {
            return Err(given.wrong("--block: give the store too, with --store"));
        };
        let (at, programme) = match self.programme.take() {
            Some(programme) => programme,
            None => (self.own_store_bytes(), no_blocks()?),
        };
        let mut job = Job {
            store,
            programme,
            names: std::mem::take(&mut self.names),
            sources: std::mem::take(&mut self.sources),
            ..Job::default()
        };
        job.put_in(given, streams)?;
        self.programme = Some((at, job.programme));
        (self.names, self.sources) = (job.names, job.sources);
        Ok(())
    }

    /// Where in a file that was put in a refusal is.
    pub fn put_in_place(&self, refused: &Refused) -> Option<String> {
        let Refused {
            number,
            block,
            offset,
            ..
        } = *refused;
        let in_code = matches!(number, 9 | 10);
        let place = || self.sources.place(block, offset);
        (in_code && self.sources.has_put_in()).then(place)
    }

    /// The sizes of the store that the programme is for, if they are known.
    pub fn sizes(&self) -> Option<Sizes> {
        let store = self.store.as_ref();
        let sizes = store.and_then(|store| inspect::store(store, &self.names).sizes);
        sizes.or(self.said)
    }

    /// The first refusal, with the sheet that it is of.
    pub fn refused(&self) -> Option<(&'static str, Refused)> {
        let store = self.store.as_ref();
        let store = store.and_then(|sheet| inspect::store(sheet, &self.names).refused);
        let programme = || {
            let (_, sheet) = self.programme.as_ref()?;
            let (principals, slots) = self.most();
            inspect::programme(sheet, principals, slots, &self.names).refused
        };
        let store = store.map(|refused| ("store", refused));
        store.or_else(|| programme().map(|refused| ("programme", refused)))
    }

    /// The principals and slots that there are, or the most that there can be.
    pub fn most(&self) -> (usize, usize) {
        let sizes = self.sizes();
        sizes.map_or((MOST_PRINCIPALS, MOST_SLOTS), |sizes| {
            (sizes.principals, sizes.slots)
        })
    }
}
