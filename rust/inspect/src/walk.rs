//! A walk over a sheet, which leaves an item for each part and the faults met.

use crate::item::{Item, Mark, Refused, What};

/// When the library judges a fault: "store sizes present (1), in limits (2), total
/// length (1); 3; then slot by slot 4 before 5; programme sizes (6, 7), length (6);
/// 8 in block order; length sum (6); 9 or 10 in byte order" (document 01), a
/// block's floor "right after its region" (document 02, N6). The earliest is the
/// answer.
#[derive(Debug, Clone, Copy, PartialEq, Eq, PartialOrd, Ord)]
pub(crate) enum Stage {
    Sizes,
    Limits,
    Length,
    Order,
    /// Of a slot its owner and then its value, of a block its region and then its
    /// floor.
    Entry(usize, Half),
    Sum,
    Code(usize),
}

#[derive(Debug, Clone, Copy, PartialEq, Eq, PartialOrd, Ord)]
pub(crate) enum Half {
    First,
    Second,
}

/// Something that is wrong with a sheet.
#[derive(Debug)]
pub(crate) struct Fault {
    pub stage: Stage,
    pub number: u32,
    pub reason: String,
}

/// A line to be: what its bytes are, and what is wrong with them.
#[derive(Debug, Default)]
pub(crate) struct Line {
    pub depth: usize,
    pub text: String,
    pub in_block: Option<(usize, usize)>,
    pub fault: Option<Fault>,
}

impl Line {
    /// A comment in words.
    pub fn note(words: String) -> Line {
        Line {
            text: format!("# {words}"),
            ..Line::default()
        }
    }

    /// A line of the notation.
    pub fn text(text: String) -> Line {
        Line {
            text,
            ..Line::default()
        }
    }

    /// A fault alone.
    pub fn fault(fault: Fault) -> Line {
        Line::default().with(Some(fault))
    }

    pub fn with(self, fault: Option<Fault>) -> Line {
        Line { fault, ..self }
    }
}

pub(crate) struct Walk<'a> {
    sheet: &'a [u8],
    at: usize,
    items: Vec<Item>,
    /// When each fault is judged, its item's number, and the refusal that it is.
    faults: Vec<(Stage, usize, Refused)>,
}

impl<'a> Walk<'a> {
    pub fn new(sheet: &'a [u8]) -> Walk<'a> {
        Walk {
            sheet,
            at: 0,
            items: vec![],
            faults: vec![],
        }
    }

    /// Of the whole sheet.
    pub fn length(&self) -> usize {
        self.sheet.len()
    }

    /// The bytes that no item has yet.
    pub fn rest(&self) -> &'a [u8] {
        self.sheet.get(self.at..).unwrap_or_default()
    }

    /// The next bytes, if there are so many.
    pub fn next(&self, count: usize) -> Option<&'a [u8]> {
        self.rest().get(..count)
    }

    /// Whether nothing wrong was met so far.
    pub fn is_good(&self) -> bool {
        self.faults.is_empty()
    }

    /// An item of the next bytes, or of those that are left where they are fewer.
    pub fn item(&mut self, length: usize, line: Line) {
        let length = length.min(self.rest().len());
        let at = self.at;
        let mark = line.fault.map(|fault| {
            let refused = refused(&fault, at, line.in_block);
            self.faults.push((fault.stage, self.items.len(), refused));
            Mark {
                number: fault.number,
                reason: fault.reason,
                is_answer: false,
            }
        });
        let what = What {
            depth: line.depth,
            text: line.text,
            mark,
        };
        self.items.push(Item {
            at,
            length,
            in_block: line.in_block,
            what,
        });
        self.at += length;
    }

    /// A line that no byte stands for.
    pub fn line(&mut self, line: Line) {
        self.item(0, line);
    }

    /// All that is left, unread.
    pub fn unread(&mut self) {
        let left = self.rest().len();
        if left > 0 {
            self.item(left, Line::default());
        }
    }

    /// The items, and the first fault in the library's order.
    pub fn finish(mut self) -> (Vec<Item>, Option<Refused>) {
        self.unread();
        let first = self.faults.into_iter().min_by_key(|(stage, ..)| *stage);
        let refused = first.map(|(_, item, refused)| {
            if let Some(mark) = self
                .items
                .get_mut(item)
                .and_then(|item| item.what.mark.as_mut())
            {
                mark.is_answer = true;
            }
            refused
        });
        (self.items, refused)
    }
}

/// The refusal as the library answers it: a place only for faults of code.
fn refused(fault: &Fault, at: usize, in_block: Option<(usize, usize)>) -> Refused {
    let is_code = matches!(fault.stage, Stage::Code(_));
    let (block, offset) = in_block.filter(|_| is_code).unwrap_or_default();
    Refused {
        number: fault.number,
        block,
        offset,
        at,
        reason: fault.reason.clone(),
    }
}
