//! `muntyzhap journal`: who wrote what.

use std::collections::BTreeMap;
use std::iter;

use model::count;
use muntyzhap::Entry;

use crate::close::perhaps;
use crate::ending::{Ended, Failure, Status};
use crate::job::Job;
use crate::options::Given;
use crate::reasons::Known;
use crate::run::{answer, finished_line, played};
use crate::settings::Settings;
use crate::setup::Setup;
use crate::streams::Streams;

#[derive(Debug, Clone, Copy, PartialEq, Eq)]
enum By {
    Order,
    Slot,
    Block,
}

impl By {
    const ALL: [(&'static str, By); 3] = [
        ("order", By::Order),
        ("slot", By::Slot),
        ("block", By::Block),
    ];

    fn of(given: &Given) -> Result<By, Failure> {
        let word = given.word("--by")?.unwrap_or("order");
        let named = By::ALL.iter().find(|(name, _)| *name == word);
        let wrong = || {
            let perhaps = perhaps(word, By::ALL.map(|(name, _)| name));
            given.wrong(format!("--by: {word} is not order, slot or block{perhaps}"))
        };
        named.map(|(_, by)| *by).ok_or_else(wrong)
    }
}

/// Runs with a journal, and prints its entries.
pub fn run(given: &Given, streams: &mut Streams) -> Ended {
    let by = By::of(given)?;
    let settings = Settings::of(given)?;
    let mut setup = Setup::of(given, &settings, streams)?;
    if setup.entries.is_none() {
        // A journal "is long enough when it has as many entries as the run makes
        // writes" (README, `The journal`), and a run without one tells how many.
        let came = setup.call().by_library();
        setup.entries = came.finished().then(|| came.writes(&setup.job.store));
    }
    let call = setup.call();
    let came = played(&setup.job, &call, settings.trace, streams)?;
    if !came.finished() {
        return answer(&setup, &call, &came, streams);
    }
    let entries: Option<Vec<Entry>> = came.journal.iter().map(Entry::from_raw).collect();
    let ill_formed = || Failure::told("the library left an ill-formed journal");
    let report = Report {
        job: &setup.job,
        known: Known::of(&setup.job, setup.rule),
        entries: entries.ok_or_else(ill_formed)?,
    };
    streams.say(&format!("{}\n", finished_line(&setup.job, &came)))?;
    for line in report.lines(by) {
        streams.say(&format!("{line}\n"))?;
    }
    Ok(Status::Done)
}

/// Lines as they are made: there may be a million.
type Lines<'a> = Box<dyn Iterator<Item = String> + 'a>;

/// The numbers of the entries in each part.
type Parts = BTreeMap<usize, Vec<usize>>;

/// The entries of a journal, to be told with names. An entry's number counts from
/// 1.
struct Report<'a> {
    job: &'a Job,
    known: Known<'a>,
    entries: Vec<Entry>,
}

impl Report<'_> {
    fn lines(&self, by: By) -> Lines<'_> {
        match by {
            By::Order => self.in_order(),
            By::Slot => self.by_slot(),
            By::Block => self.by_block(),
        }
    }

    fn in_order(&self) -> Lines<'_> {
        let entries = self.entries.iter().enumerate();
        Box::new(entries.map(|(number, entry)| {
            let (number, block) = (self.number(number), self.block(entry));
            let (place, slot) = (self.place(entry), self.slot(entry));
            format!(
                "{number}  {block} at {place} wrote {slot}: {}",
                self.change(entry)
            )
        }))
    }

    fn by_slot(&self) -> Lines<'_> {
        let names = &self.job.names;
        let store = self.job.store_model().unwrap_or_default();
        let written = self.parts(|entry| entry.slot.into());
        let rest = (0..store.slots.len()).filter(|slot| !written.contains_key(slot));
        let rest = left_over("not written", rest.map(|slot| names.slot(slot)).collect());
        let heading = move |slot: usize| {
            let owner = store.slots.get(slot).map(|slot| slot.owner);
            let owner = names.principal(owner.unwrap_or_default().into());
            format!("{}, which {owner} owns", names.slot(slot))
        };
        let line = |entry: &Entry| {
            let (block, place) = (self.block(entry), self.place(entry));
            format!("{block} at {place}: {}", self.change(entry))
        };
        Box::new(self.told(written, heading, line).chain(rest))
    }

    fn by_block(&self) -> Lines<'_> {
        let written = self.parts(|entry| entry.place.block);
        let rest = (0..self.known.blocks()).filter(|block| !written.contains_key(block));
        let rest = left_over(
            "wrote nothing",
            rest.map(|block| self.known.block(block)).collect(),
        );
        let heading = |block| self.known.block(block);
        let line = |entry: &Entry| {
            let (place, slot) = (self.place(entry), self.slot(entry));
            format!("at {place} wrote {slot}: {}", self.change(entry))
        };
        Box::new(self.told(written, heading, line).chain(rest))
    }

    fn parts(&self, part: impl Fn(&Entry) -> usize) -> Parts {
        let mut parts = Parts::new();
        for (number, entry) in self.entries.iter().enumerate() {
            parts.entry(part(entry)).or_default().push(number);
        }
        parts
    }

    /// A heading for each part, and its entries.
    fn told<'a>(
        &'a self,
        parts: Parts,
        heading: impl Fn(usize) -> String + 'a,
        line: impl Fn(&Entry) -> String + Copy + 'a,
    ) -> impl Iterator<Item = String> + 'a {
        parts.into_iter().flat_map(move |(part, numbers)| {
            let writes = count(numbers.len(), "write");
            let heading = format!("{}: {writes}", heading(part));
            let lines = numbers.into_iter().map(move |number| {
                let entry = line(&self.entries[number]);
                format!("  {}  {entry}", self.number(number))
            });
            iter::once(heading).chain(lines)
        })
    }

    /// An entry's number, as wide as the last one's.
    fn number(&self, number: usize) -> String {
        let width = self.entries.len().to_string().len();
        format!("{:>width$}", number + 1)
    }

    fn block(&self, entry: &Entry) -> String {
        self.known.block(entry.place.block)
    }

    fn slot(&self, entry: &Entry) -> String {
        self.job.names.slot(entry.slot.into())
    }

    fn place(&self, entry: &Entry) -> String {
        self.job.place(entry.place.block, entry.place.offset)
    }

    fn change(&self, entry: &Entry) -> String {
        let names = &self.job.names;
        format!("{} -> {}", names.value(entry.old), names.value(entry.new))
    }
}

/// A line of those that have no entry, if there are any.
fn left_over(words: &str, names: Vec<String>) -> Option<String> {
    let line = || format!("{words}: {}", names.join(", "));
    (!names.is_empty()).then(line)
}
