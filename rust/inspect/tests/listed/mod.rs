//! Listings, and what is read back from them.

// Each test file uses its own share of this.
#![allow(dead_code)]

use inspect::{listing, split, Sheet};
use model::Names;

/// Where the columns of a listing are, from its first line.
struct Columns {
    bytes: usize,
    text: usize,
}

impl Columns {
    fn of(listing: &str) -> Columns {
        let first = listing.lines().next().expect("a line of headings");
        Columns {
            bytes: first.find("bytes").expect("a heading"),
            text: first.find("text").expect("a heading"),
        }
    }

    fn bytes<'a>(&self, line: &'a str) -> &'a str {
        line.get(self.bytes..self.text.min(line.len()))
            .unwrap_or("")
    }

    fn text<'a>(&self, line: &'a str) -> &'a str {
        line.get(self.text..).unwrap_or("")
    }
}

/// The bytes of a listing, each line's at the file offset that stands before them.
pub fn bytes_of(listing: &str, first: usize) -> Vec<u8> {
    let columns = Columns::of(listing);
    let mut bytes = vec![];
    for line in listing.lines().skip(1) {
        let row = columns.bytes(line).split_whitespace();
        let row: Vec<u8> = row
            .map(|byte| u8::from_str_radix(byte, 16).expect("a byte"))
            .collect();
        if !row.is_empty() {
            let at = line.split(' ').next().expect("an offset");
            let at = usize::from_str_radix(at, 16).expect("an offset");
            assert_eq!(at, first + bytes.len(), "{listing}");
        }
        bytes.extend(row);
    }
    bytes
}

pub fn text_of(listing: &str) -> String {
    let columns = Columns::of(listing);
    let lines = listing.lines().skip(1).map(|line| columns.text(line));
    lines.collect::<Vec<_>>().join("\n")
}

/// A file of both sheets, which starts at some offset.
pub fn file(bytes: &[u8], at: usize, names: &Names) -> String {
    let (store, programme) = split(bytes);
    let after = at + store.len();
    let store = Sheet { bytes: store, at };
    let programme = Sheet {
        bytes: programme,
        at: after,
    };
    listing(Some(store), Some(programme), None, names)
}

pub fn marks(listing: &str, mark: &str) -> usize {
    listing.lines().filter(|line| line.contains(mark)).count()
}
