//! The two sizes that either sheet starts with, and the length that they ask for.

use std::ops::RangeInclusive;

use crate::layout::{self, number};
use crate::walk::{Fault, Line, Stage, Walk};
use crate::words::count;

/// A size on a sheet.
pub(crate) struct Size {
    /// What the documents call it.
    pub letter: &'static str,
    pub bytes: usize,
    pub limits: RangeInclusive<usize>,
    /// The limits in words.
    pub most: String,
    /// So many, in words.
    pub words: fn(usize) -> String,
}

/// Both sizes of a kind of sheet, and the numbers that it is refused by.
pub(crate) struct Sizing {
    /// For a length that is not what the sizes ask for.
    pub length: u32,
    /// For sizes outside their limits.
    pub limits: u32,
    pub sizes: [Size; 2],
}

impl Sizing {
    /// Both sizes, if they are there and in limits.
    pub fn read(&self, walk: &mut Walk) -> Option<[usize; 2]> {
        let mut said = [0; 2];
        for (size, said) in self.sizes.iter().zip(&mut said) {
            let Some(bytes) = walk.next(size.bytes) else {
                self.missing(walk);
                return None;
            };
            *said = number(bytes) as usize;
            self.item(walk, size, *said);
        }
        walk.is_good().then_some(said)
    }

    fn item(&self, walk: &mut Walk, size: &Size, said: usize) {
        let is_outside = !size.limits.contains(&said);
        let fault = is_outside.then(|| Fault {
            stage: Stage::Limits,
            number: self.limits,
            reason: format!("{} is {said}, and {}", size.letter, size.most),
        });
        walk.item(size.bytes, Line::note((size.words)(said)).with(fault));
    }

    fn missing(&self, walk: &mut Walk) {
        walk.unread();
        walk.line(Line::fault(Fault {
            stage: Stage::Sizes,
            number: self.length,
            reason: format!(
                "the sheet has {}, and its sizes alone take {}",
                count(walk.length(), "byte"),
                layout::SIZES
            ),
        }));
    }

    /// Judges the sheet's length after all was read that the sizes say. One that is
    /// too short misses something at its end; of one that is too long the bytes
    /// from the wanted length on are too many.
    pub fn judge_length(&self, walk: &mut Walk, said: [usize; 2], wanted: usize) {
        let length = walk.length();
        if length == wanted {
            return;
        }
        if length < wanted {
            walk.unread();
        }
        let [first, second] = &self.sizes;
        let (first, second) = ((first.words)(said[0]), (second.words)(said[1]));
        let fault = Fault {
            stage: Stage::Length,
            number: self.length,
            reason: format!(
                "the sheet has {}, and its sizes ({first}, {second}) ask for {wanted}",
                count(length, "byte")
            ),
        };
        walk.item(length.saturating_sub(wanted), Line::fault(fault));
    }
}
