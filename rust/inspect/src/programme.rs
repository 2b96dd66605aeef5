//! The programme sheet: refusals 6 to 10.

use model::{Block, Code, Command, Names, Programme};
use muntyzhap::sheet::{MOST_BLOCKS, MOST_CODE};

use crate::code::{self, CodeFault, CodeLine};
use crate::header::{Header, HeaderReader};
use crate::item::{Item, Refused};
use crate::layout;
use crate::sizes::{Size, Sizing};
use crate::text;
use crate::walk::{Fault, Line, Stage, Walk};
use crate::words::{self, count};

/// The refusals of a programme sheet's sizes, as document 01 numbers them.
const LENGTH: u32 = 6;
const LIMITS: u32 = 7;

/// What the bytes of a programme sheet are.
#[derive(Debug, Clone, PartialEq, Eq)]
pub struct ProgrammeRead {
    pub items: Vec<Item>,
    /// What a good sheet says.
    pub model: Option<Programme>,
    pub refused: Option<Refused>,
}

/// Reads a programme sheet for a store of so many principals and slots, as far as
/// it goes. More slots than a store can have are taken as the most that it can.
pub fn programme(sheet: &[u8], principals: usize, slots: usize, names: &Names) -> ProgrammeRead {
    let mut walk = Walk::new(sheet);
    let sizing = sizing();
    let said = sizing.read(&mut walk);
    let slots = words::slots_in_limits(slots);
    let mut reader = Reader { walk, slots, names };
    let model = said.and_then(|[blocks, code]| {
        let model = reader.programme(blocks, code, principals);
        let wanted = layout::code_start(blocks) + code;
        sizing.judge_length(&mut reader.walk, [blocks, code], wanted);
        model.filter(|_| reader.walk.is_good())
    });
    let (items, refused) = reader.walk.finish();
    ProgrammeRead {
        items,
        model,
        refused,
    }
}

/// What a good programme sheet says; None of one that is refused.
pub fn programme_model(sheet: &[u8], principals: usize, slots: usize) -> Option<Programme> {
    programme(sheet, principals, slots, &Names::default()).model
}

fn sizing() -> Sizing {
    let blocks = Size {
        letter: "k",
        bytes: layout::FIRST_SIZE,
        limits: 0..=MOST_BLOCKS,
        most: format!("a programme has at most {MOST_BLOCKS} blocks"),
        words: |blocks| count(blocks, "block"),
    };
    let code = Size {
        letter: "c",
        bytes: layout::SECOND_SIZE,
        limits: 0..=MOST_CODE,
        most: format!("a programme has at most {MOST_CODE} bytes of code"),
        words: |code| format!("{} of code", count(code, "byte")),
    };
    Sizing {
        length: LENGTH,
        limits: LIMITS,
        sizes: [blocks, code],
    }
}

struct Reader<'a> {
    walk: Walk<'a>,
    slots: usize,
    names: &'a Names,
}

impl Reader<'_> {
    /// What is after sizes in limits, if it is all there and its code is good.
    fn programme(&mut self, blocks: usize, code: usize, principals: usize) -> Option<Programme> {
        let headers = HeaderReader {
            walk: &mut self.walk,
            principals,
            names: self.names,
        };
        let headers = headers.headers(blocks, code)?;
        let blocks = self.blocks(&headers, code)?;
        Some(Programme { blocks })
    }

    /// The blocks in the code, `size` bytes or as many as are left, if all are
    /// good.
    fn blocks(&mut self, headers: &[Header], size: usize) -> Option<Vec<Block>> {
        let rest = self.walk.rest();
        let mut code = rest.get(..size).unwrap_or(rest);
        if headers.is_empty() {
            self.walk.line(Line::text(text::NO_BLOCKS.to_string()));
        }
        let mut blocks = vec![];
        for (number, header) in headers.iter().enumerate() {
            let own = code.split_at_checked(header.length);
            let (own, after) = own.unwrap_or((code, &[]));
            code = after;
            blocks.push(self.block(number, header, own));
        }
        let sum: usize = headers.iter().map(|header| header.length).sum();
        if sum < size {
            // What no block has, if it is there.
            let line = Line::fault(wrong_sum(sum, size));
            self.walk.item(code.len(), line);
        }
        blocks.into_iter().collect()
    }

    /// A block, of whose code these bytes are there.
    fn block(&mut self, number: usize, header: &Header, own: &[u8]) -> Option<Block> {
        let (region, floor) = (header.region, header.floor);
        let head = text::block(number, region, floor, self.names);
        self.walk.line(Line::text(head));
        let read = code::read(own, self.slots, self.names);
        for line in read.lines {
            self.code_line(number, line);
        }
        let is_cut = own.len() < header.length;
        let command = match read.command {
            Ok(command) => Some(command),
            // What a block lacks that is cut off is counted by 6.
            Err(fault) if is_cut && fault.at == own.len() => None,
            Err(fault) => self.refuse(number, own.len(), fault),
        };
        if is_cut {
            let whole = count(header.length, "byte");
            let words = format!("{} of {whole} are here", own.len());
            let line = Line::note(words);
            self.walk.line(Line { depth: 1, ..line });
        }
        self.walk.line(Line::text(text::END.to_string()));
        command.map(|command| Block {
            region,
            floor,
            code: Code::Command(command),
        })
    }

    fn code_line(&mut self, block: usize, line: CodeLine) {
        let CodeLine {
            at,
            length,
            depth,
            text,
        } = line;
        let in_block = (length > 0).then_some((block, at));
        let line = Line {
            depth,
            in_block,
            ..Line::text(text)
        };
        self.walk.item(length, line);
    }

    /// The fault of a block's code, and the bytes after it unread.
    fn refuse(&mut self, block: usize, length: usize, fault: CodeFault) -> Option<Command> {
        let after = fault.at + fault.length;
        let line = Line::fault(Fault {
            stage: Stage::Code(block),
            number: fault.number,
            reason: fault.reason,
        });
        let in_block = Some((block, fault.at));
        self.walk.item(fault.length, Line { in_block, ..line });
        let left = length.saturating_sub(after);
        if left > 0 {
            let in_block = Some((block, after));
            let line = Line::default();
            self.walk.item(left, Line { in_block, ..line });
        }
        None
    }
}

/// "block lengths, adding up to c" (document 01)
pub(crate) fn wrong_sum(sum: usize, code: usize) -> Fault {
    Fault {
        stage: Stage::Sum,
        number: LENGTH,
        reason: format!(
            "the blocks' lengths add up to {sum}, and the code has {}",
            count(code, "byte")
        ),
    }
}
