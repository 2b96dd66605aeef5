//! What a run wrote, in words.

use std::collections::BTreeMap;
use std::fmt::{self, Display, Formatter};

use crate::journal::Entry;

/// The entries of a journal in words, a line for each, with its number in the
/// journal: in their order or, under headings, by slot or by block. Slots and
/// blocks that have none are left out.
#[derive(Debug, Clone, Copy, PartialEq, Eq)]
pub struct Report<'a> {
    journal: &'a [Entry],
    arranged: Arranged,
}

#[derive(Debug, Clone, Copy, PartialEq, Eq)]
enum Arranged {
    InOrder,
    BySlot,
    ByBlock,
}

impl<'a> Report<'a> {
    /// Of these entries, in their order.
    pub fn of(journal: &'a [Entry]) -> Report<'a> {
        Report {
            journal,
            arranged: Arranged::InOrder,
        }
    }

    /// The same by slot: which blocks wrote what into each.
    pub fn by_slot(self) -> Report<'a> {
        Report {
            arranged: Arranged::BySlot,
            ..self
        }
    }

    /// The same by block: what each wrote into which slots.
    pub fn by_block(self) -> Report<'a> {
        Report {
            arranged: Arranged::ByBlock,
            ..self
        }
    }

    fn tell_in_order(&self, out: &mut Formatter) -> fmt::Result {
        for (number, entry) in self.journal.iter().enumerate() {
            if number > 0 {
                writeln!(out)?;
            }
            write!(out, "entry {number}: {entry}")?;
        }
        Ok(())
    }

    /// Under a heading for each part, the entries that are in it.
    fn tell_by(&self, part: Part, out: &mut Formatter) -> fmt::Result {
        let mut parts: BTreeMap<usize, Vec<usize>> = BTreeMap::new();
        for (number, entry) in self.journal.iter().enumerate() {
            parts.entry((part.of)(entry)).or_default().push(number);
        }
        for (place, (of, numbers)) in parts.iter().enumerate() {
            if place > 0 {
                writeln!(out)?;
            }
            write!(out, "{} {of}, {}", part.name, writes(numbers.len()))?;
            for number in numbers {
                write!(out, "\n  entry {number}: ")?;
                (part.tell)(&self.journal[*number], out)?;
            }
        }
        Ok(())
    }
}

/// Lines, with a line feed between them: `no writes` where there is no entry.
impl Display for Report<'_> {
    fn fmt(&self, out: &mut Formatter) -> fmt::Result {
        if self.journal.is_empty() {
            return out.write_str(&writes(0));
        }
        match self.arranged {
            Arranged::InOrder => self.tell_in_order(out),
            Arranged::BySlot => self.tell_by(SLOT, out),
            Arranged::ByBlock => self.tell_by(BLOCK, out),
        }
    }
}

/// What entries are put together by.
struct Part {
    name: &'static str,
    /// The number of the part that an entry is in.
    of: fn(&Entry) -> usize,
    /// What the heading doesn't say of an entry.
    tell: fn(&Entry, &mut Formatter) -> fmt::Result,
}

const SLOT: Part = Part {
    name: "slot",
    of: |entry| entry.slot.into(),
    tell: |entry, out| {
        let (place, old, new) = (entry.place, entry.old, entry.new);
        write!(out, "{place} wrote {new} over {old}")
    },
};

const BLOCK: Part = Part {
    name: "block",
    of: |entry| entry.place.block,
    tell: |entry, out| {
        let (offset, slot) = (entry.place.offset, entry.slot);
        let (old, new) = (entry.old, entry.new);
        write!(
            out,
            "at offset {offset} wrote {new} to slot {slot} over {old}"
        )
    },
};

fn writes(count: usize) -> String {
    match count {
        0 => "no writes".to_string(),
        1 => "1 write".to_string(),
        _ => format!("{count} writes"),
    }
}
