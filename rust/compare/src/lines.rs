//! The lines that a run prints.

use std::fmt::Display;
use std::str::{self, FromStr};

use crate::sheets::Table;
use crate::values::Integer;

/// What was printed: the number of the first line, each slot's line, and the total
/// of a run that finished.
#[derive(Debug, Clone, PartialEq, Eq)]
pub struct Lines {
    pub number: u32,
    pub slots: Vec<SlotLine>,
    pub total: Option<u32>,
}

#[derive(Debug, Clone, Copy, PartialEq, Eq)]
pub struct SlotLine {
    pub owner: u8,
    pub kind: u8,
    pub payload: Integer,
    pub count: u32,
    /// The principals at or above the owner.
    pub above: u32,
}

impl Lines {
    /// None if these bytes have another form than documents 01 and 02 give them.
    pub fn read(bytes: &[u8]) -> Option<Lines> {
        let text = str::from_utf8(bytes).ok()?.strip_suffix('\n')?;
        let mut lines = text.split('\n');
        let number = first_line(lines.next()?)?;
        let mut slots: Vec<&str> = lines.collect();
        // "A refusal prints line 1 only." Else "a last line is the total of writes."
        let total = match number {
            0 => Some(self::number(slots.pop()?)?),
            _ if slots.is_empty() => None,
            _ => return None,
        };
        let slots = slots.into_iter().enumerate();
        let slots = slots.map(|(slot, line)| slot_line(slot, line));
        Some(Lines {
            number,
            slots: slots.collect::<Option<_>>()?,
            total,
        })
    }

    /// Whether the total is that of the counts, and owners stand in the order as
    /// the table has them.
    pub fn agree_with(&self, table: &Table) -> bool {
        let total = self.slots.iter().map(|slot| slot.count).sum();
        let owners = self.slots.iter().map(|slot| slot.owner);
        self.total == Some(total)
            && owners.eq(table.owners.iter().copied())
            && self
                .slots
                .iter()
                .all(|slot| slot.above == above(table, slot.owner))
    }
}

/// "how many principals stand at or above its owner" (document 02, N7)
fn above(table: &Table, owner: u8) -> u32 {
    let lattice = &table.lattice;
    let principals = lattice.principals_where(|other| lattice.at_or_below(owner, other));
    principals.len() as u32
}

/// "Line 1: number, block, offset, steps."
fn first_line(line: &str) -> Option<u32> {
    let words: Vec<&str> = line.split(' ').collect();
    let ["end", answer, "block", block, "at", offset, "steps", steps] = words[..] else {
        return None;
    };
    for word in [block, offset, steps] {
        number::<u32>(word)?;
    }
    number(answer)
}

/// "Then per slot: slot, owner, kind, payload." "each slot's line ends with two
/// more fields, its count and how many principals stand at or above its owner"
fn slot_line(slot: usize, line: &str) -> Option<SlotLine> {
    let words: Vec<&str> = line.split(' ').collect();
    let [own, owner, kind, payload, count, above] = words[..] else {
        return None;
    };
    (number(own) == Some(slot)).then_some(SlotLine {
        owner: number(owner)?,
        kind: number(kind)?,
        payload: number(payload)?,
        count: number(count)?,
        above: number(above)?,
    })
}

/// A decimal number, written in the one way that there is.
fn number<T: FromStr + Display>(word: &str) -> Option<T> {
    let number: T = word.parse().ok()?;
    (number.to_string() == word).then_some(number)
}

#[cfg(test)]
mod tests {
    use super::*;
    use crate::sheets::plain_store;

    const FIRST: &str = "end 0 block 2 at 0 steps 2\n";

    /// Document 01's example, with what document 02 adds.
    fn example() -> Lines {
        let printed = [FIRST, "0 0 0 42 1 2\n1 1 0 42 1 1\n2\n"].concat();
        Lines::read(printed.as_bytes()).expect("good lines")
    }

    #[test]
    fn the_lines_of_the_documents_are_read() {
        let slot = |owner, above| SlotLine {
            owner,
            kind: 0,
            payload: 42,
            count: 1,
            above,
        };
        let lines = example();
        assert_eq!((lines.number, lines.total), (0, Some(2)));
        assert_eq!(lines.slots, [slot(0, 2), slot(1, 1)]);

        let refused = Lines::read(b"end 16 block 1 at 12 steps 1\n").expect("a good line");
        assert_eq!((refused.number, refused.total), (16, None));
        assert_eq!(refused.slots, []);

        let empty = Lines::read(b"end 0 block 0 at 0 steps 0\n0\n").expect("good lines");
        assert_eq!((empty.slots.len(), empty.total), (0, Some(0)));
    }

    #[test]
    fn a_minus_sign_is_read() {
        let printed = b"end 0 block 0 at 0 steps 0\n0 31 0 -9223372036854775808 0 1\n0\n";
        let lines = Lines::read(printed).expect("good lines");
        assert_eq!(lines.slots[0].payload, Integer::MIN);
    }

    #[test]
    fn lines_that_do_not_fit_the_table_are_told() {
        let mut table = plain_store(2, 2).table;
        assert!(!example().agree_with(&table));
        table.owners[1] = 1;
        assert!(example().agree_with(&table));
        let changes: [fn(&mut Lines); 5] = [
            |lines| lines.total = Some(3),
            |lines| lines.slots[0].count = 2,
            |lines| lines.slots[0].above = 1,
            |lines| lines.slots[1].above = 0,
            |lines| lines.slots[1].owner = 0,
        ];
        for change in changes {
            let mut lines = example();
            change(&mut lines);
            assert!(!lines.agree_with(&table), "{lines:?}");
        }
    }

    #[test]
    fn other_forms_are_not_read() {
        let first = [
            "",
            "\n",
            "end 0 block 0 at 0 steps 0\n",
            "end 0 block 0 at 0 steps 0\n0",
            "End 0 block 0 at 0 steps 0\n0\n",
            "end 0 block 0 at 0 steps\n0\n",
            "end 0 block 0 at 0 steps -1\n0\n",
            "end 0  block 0 at 0 steps 0\n0\n",
            "end 0 block 0 at 0 steps 0\n\n0\n",
            "end 17 block 0 at 0 steps 0\n0\n",
            "end 17 block 0 at 0 steps 0\n0 0 0 1 0 1\n0\n",
        ];
        for other in first {
            assert_eq!(Lines::read(other.as_bytes()), None, "{other:?}");
        }
        let rest = [
            "0 0 0 1 0 1\n",
            "0 0 0 1 0 1\n0 \n",
            "0 0 0 1 0 1\n+0\n",
            "0 0 0 1 0 1\n-1\n",
            "0 0 0 1 0 1\n0\n\n",
            "0 0 0 1\n0\n",
            "0 0 0 1 0\n0\n",
            "0 0 0 1 0 1 1\n0\n",
            "0 0 0 1 0 1 \n0\n",
            "1 0 0 1 0 1\n0\n",
            "0 0 0 +1 0 1\n0\n",
            "0 0 0 -0 0 1\n0\n",
            "0 0 0 01 0 1\n0\n",
            "0 0 0 9223372036854775808 0 1\n0\n",
            "0 0 0 1 -1 1\n0\n",
            "0 0 0 1 4294967296 1\n0\n",
        ];
        for other in rest {
            let printed = [FIRST, other].concat();
            assert_eq!(Lines::read(printed.as_bytes()), None, "{other:?}");
        }
    }
}
