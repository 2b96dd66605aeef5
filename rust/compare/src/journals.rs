//! Journals: how they are lent, and what is seen of them afterwards.

mod counts;
mod lengths;
mod memory;
mod situations;
mod walked;
mod writes;

pub use self::counts::{long_runs, Counts};
pub use self::lengths::{random_length, Lengths};
pub use self::memory::{as_entries, Words};
pub use self::situations::Situations;
pub use self::walked::walk;
pub use self::writes::Writes;

use std::array;
use std::fmt::{self, Display, Formatter};
use std::slice;

use crate::calls::hex;
use crate::values::Value;

/// A value as it stands in sheets and outputs.
type ValueBytes = [u8; Value::WIDTH];

/// "block, offset, slot, old value, new value" (document 02, N7)
#[derive(Debug, Clone, Copy, PartialEq, Eq)]
pub struct Entry {
    pub block: usize,
    pub offset: usize,
    pub slot: usize,
    pub old: ValueBytes,
    pub new: ValueBytes,
}

impl From<&second_runner::Entry> for Entry {
    fn from(entry: &second_runner::Entry) -> Entry {
        Entry {
            block: entry.block,
            offset: entry.offset,
            slot: entry.slot,
            old: value_bytes(entry.old),
            new: value_bytes(entry.new),
        }
    }
}

fn value_bytes(value: second_runner::Value) -> ValueBytes {
    let mut bytes = [value.kind; Value::WIDTH];
    bytes[1..].copy_from_slice(&value.payload.to_le_bytes());
    bytes
}

impl Display for Entry {
    fn fmt(&self, out: &mut Formatter) -> fmt::Result {
        let Entry {
            block,
            offset,
            slot,
            old,
            new,
        } = self;
        let (old, new) = (hex(old), hex(new));
        write!(out, "block {block} at {offset}: slot {slot} {old} {new}")
    }
}

/// A journal lent to a call, between margins that are not lent. All of it starts
/// with a pattern, so a byte that was touched shows.
#[derive(Debug, Clone)]
pub struct Lent {
    words: Vec<Words>,
}

impl Lent {
    /// Room for an entry too many.
    const MARGIN: usize = 2;

    pub fn new(length: usize) -> Lent {
        let places = 0..length + 2 * Lent::MARGIN;
        Lent {
            words: places.map(pattern).collect(),
        }
    }

    pub fn lend(&mut self) -> &mut [Words] {
        let end = self.words.len() - Lent::MARGIN;
        &mut self.words[Lent::MARGIN..end]
    }

    /// What is to be seen of it after the call.
    pub fn seen(mut self) -> Journal {
        let first = Lent::MARGIN;
        let filled = self.filled();
        let others = (0..first).chain(first + filled.len()..self.words.len());
        let strays = others.filter(|place| !self.is_as_lent(*place));
        let strays = strays.map(|place| place as isize - first as isize);
        Journal {
            strays: strays.collect(),
            length: self.words.len() - 2 * Lent::MARGIN,
            filled,
        }
    }

    /// The entries from the first on whose fields are not as lent.
    fn filled(&mut self) -> Vec<Entry> {
        let places = Lent::MARGIN..self.words.len() - Lent::MARGIN;
        let entries = places.map(|place| (place, fields(&mut self.words[place])));
        let changed = |(place, entry)| (entry != fields(&mut pattern(place))).then_some(entry);
        entries.map_while(changed).collect()
    }

    /// Whether every byte is. The words are read where the fields are as lent:
    /// nothing was written there, or just what the pattern has.
    fn is_as_lent(&mut self, place: usize) -> bool {
        let mut lent = pattern(place);
        let words = &mut self.words[place];
        fields(words) == fields(&mut lent) && *words == lent
    }
}

/// The words with which the entry at this place is lent. No block has such a
/// number, so an entry that was filled is another.
fn pattern(place: usize) -> Words {
    const MARK: u64 = 0xA7A6_A5A4_A3A2_A1A0;
    array::from_fn(|word| MARK ^ (place * size_of::<Words>() + word) as u64)
}

/// These words as an entry.
fn fields(words: &mut Words) -> Entry {
    let entries = as_entries::<second_runner::Entry>(slice::from_mut(words));
    Entry::from(&entries[0])
}

/// What is seen of a lent journal.
#[derive(Debug, Clone, PartialEq, Eq)]
pub struct Journal {
    pub length: usize,
    /// The entries that were filled, from the first on.
    pub filled: Vec<Entry>,
    /// The places of all others that have a byte that is not as lent; the first
    /// entry has place 0, and the last one before it -1.
    pub strays: Vec<isize>,
}

impl Journal {
    /// Nothing lent.
    pub fn none() -> Journal {
        Lent::new(0).seen()
    }

    pub fn is_untouched(&self) -> bool {
        self.filled.is_empty() && self.strays.is_empty()
    }
}

/// The first entries, and how many there are.
impl Display for Journal {
    fn fmt(&self, out: &mut Formatter) -> fmt::Result {
        const SHOWN: usize = 100;
        let Journal {
            length,
            filled,
            strays,
        } = self;
        write!(out, "{} of {length} entries filled", filled.len())?;
        for entry in filled.iter().take(SHOWN) {
            write!(out, "\n  {entry}")?;
        }
        match strays.is_empty() {
            true => Ok(()),
            false => write!(out, "\n  others touched: {strays:?}"),
        }
    }
}

#[cfg(test)]
mod tests {
    use super::*;

    /// What is seen of three lent entries after this.
    fn seen(call: impl Fn(&mut [Words])) -> Journal {
        let mut lent = Lent::new(3);
        call(lent.lend());
        lent.seen()
    }

    /// The value that 7 and a kind of 2 are.
    const VALUE: second_runner::Value = second_runner::Value {
        kind: 2,
        payload: 7,
    };

    fn entry(block: usize) -> second_runner::Entry {
        second_runner::Entry {
            block,
            offset: 3,
            slot: 4,
            old: VALUE,
            new: second_runner::Value::default(),
        }
    }

    #[test]
    fn entries_are_seen_by_their_fields() {
        let journal = seen(|lent| as_entries(lent)[..2].copy_from_slice(&[entry(1), entry(0)]));
        let filled = |block| Entry {
            block,
            offset: 3,
            slot: 4,
            old: [2, 7, 0, 0, 0, 0, 0, 0, 0],
            new: [0; Value::WIDTH],
        };
        assert_eq!(journal.filled, [filled(1), filled(0)]);
        assert_eq!((journal.length, journal.strays.len()), (3, 0));
        assert!(!journal.is_untouched() && seen(|_| ()).is_untouched());
    }

    /// Padding counts where an entry was not filled, and not where it was.
    #[test]
    fn every_byte_that_was_touched_shows() {
        for word in 0..7 {
            for byte in 0..8 {
                let touched = seen(|lent| lent[1][word] ^= 1 << (8 * byte));
                assert_eq!(touched.strays, [1], "byte {byte} of word {word}");
                assert!(touched.filled.is_empty() && !touched.is_untouched());
            }
        }
        let padding = |journal: &mut [Words]| {
            journal[0] = [1, 2, 3, 0x0502, 7, 0x0600, 8];
        };
        let mut plain = seen(padding);
        assert!(plain.strays.is_empty() && plain.filled.len() == 1);
        let without = seen(|lent| lent[0] = [1, 2, 3, 2, 7, 0, 8]);
        assert_eq!(plain, without);
        plain.filled[0].old[0] = 3;
        assert_ne!(plain, without);
    }

    #[test]
    fn margins_are_looked_at() {
        for place in [0, 1, 5, 6] {
            let mut lent = Lent::new(3);
            lent.words[place][3] ^= 1 << 63;
            assert_eq!(lent.seen().strays, [place as isize - 2]);
        }
        let mut empty = Lent::new(0);
        assert!(empty.lend().is_empty());
        assert!(empty.seen().is_untouched());
    }

    /// One that is left out shows, and so does one that is moved.
    #[test]
    fn no_entry_is_left_out() {
        let first = seen(|lent| as_entries(lent)[1] = entry(0));
        assert_eq!((first.filled.len(), first.strays), (0, vec![1]));
        let middle = seen(|lent| {
            as_entries(lent)[0] = entry(0);
            as_entries(lent)[2] = entry(0);
        });
        assert_eq!((middle.filled.len(), middle.strays), (1, vec![2]));
        let moved = seen(|lent| lent[2] = lent[1]);
        assert_eq!(moved.strays, [2]);
    }
}
