//! The listing of sheets: every byte of them once, in order, and what it is.

use model::Names;
use muntyzhap::sheet::{MOST_PRINCIPALS, MOST_SLOTS};

use crate::item::{Item, Mark, Refused};
use crate::layout::Sizes;
use crate::programme::programme;
use crate::store::{self, store, StoreRead};
use crate::words::count;

/// The bytes of a sheet, and where in its file the first of them stands.
#[derive(Debug, Clone, Copy, PartialEq, Eq)]
pub struct Sheet<'a> {
    pub bytes: &'a [u8],
    pub at: usize,
}

/// What is listed of these sheets, line by line: the offset in the file, the
/// offset in the block, the bytes, and in words or in the notation what they are.
/// A programme without a store is for one of these sizes, if they are known.
///
/// What is wrong is marked at its byte. The first fault of all is the answer;
/// others are told as `also`.
pub fn listing(
    store_sheet: Option<Sheet>,
    programme_sheet: Option<Sheet>,
    sizes: Option<Sizes>,
    names: &Names,
) -> String {
    let sheets = [store_sheet, programme_sheet].into_iter().flatten();
    let end = sheets.map(|sheet| sheet.at + sheet.bytes.len()).max();
    let mut page = Page::new(end.unwrap_or(0));
    let read = store_sheet.map(|sheet| store(sheet.bytes, names));
    if let (Some(sheet), Some(read)) = (store_sheet, &read) {
        page.sheet("store", sheet, &read.items, read.refused.as_ref());
    }
    if let Some(sheet) = programme_sheet {
        let follows = store_sheet.is_some_and(|store| store.at + store.bytes.len() == sheet.at);
        let said = read.as_ref().and_then(|read| read.sizes).or(sizes);
        let doubt = read.as_ref().filter(|_| follows).and_then(uncertain);
        let size = said.unwrap_or(Sizes {
            principals: MOST_PRINCIPALS,
            slots: MOST_SLOTS,
        });
        let read = programme(sheet.bytes, size.principals, size.slots, names);
        for words in doubt.into_iter().chain(said.is_none().then(unknown_sizes)) {
            page.note(&words);
        }
        page.sheet("programme", sheet, &read.items, read.refused.as_ref());
    }
    page.text
}

/// Where the store sheet's length is not known, neither is the programme's
/// start.
fn uncertain(read: &StoreRead) -> Option<String> {
    let refused = read.refused.as_ref()?;
    let doubtful = matches!(refused.number, store::LENGTH | store::LIMITS);
    doubtful.then(|| {
        format!(
            "where the programme sheet starts is uncertain: the store sheet is refused by {}",
            refused.number
        )
    })
}

fn unknown_sizes() -> String {
    format!(
        "the store is not known: taken as one of {MOST_PRINCIPALS} principals and {MOST_SLOTS} slots, the most \
         that there can be"
    )
}

/// The lines so far.
struct Page {
    text: String,
    /// How many digits a file offset has.
    digits: usize,
    /// Whether the answer was met already.
    is_refused: bool,
}

impl Page {
    const FEWEST_DIGITS: usize = 4;
    /// The columns of the offset in a block and of the bytes, and what is between
    /// columns.
    const IN_BLOCK: usize = 8;
    const BYTES_IN_ROW: usize = 12;
    const BYTES: usize = 3 * Page::BYTES_IN_ROW - 1;
    const GAP: &'static str = "  ";
    const INDENT: &'static str = "  ";

    fn new(end: usize) -> Page {
        let digits = format!("{end:X}").len().max(Page::FEWEST_DIGITS);
        let mut page = Page {
            text: String::new(),
            digits,
            is_refused: false,
        };
        page.row("file", "in block", "bytes", "text");
        page
    }

    fn sheet(&mut self, kind: &str, sheet: Sheet, items: &[Item], refused: Option<&Refused>) {
        let verdict = refused.map_or("good".to_string(), |refused| {
            self.verdict(sheet, items, refused)
        });
        let length = count(sheet.bytes.len(), "byte");
        self.note(&format!("{kind} sheet, {length}: {verdict}"));
        for item in items {
            self.item(sheet, item);
        }
        self.is_refused |= refused.is_some();
    }

    /// By what a sheet is refused, and where; or would be, where the answer is
    /// the other sheet's.
    fn verdict(&self, sheet: Sheet, items: &[Item], refused: &Refused) -> String {
        let verb = match self.is_refused {
            true => "would be refused",
            false => "refused",
        };
        let (number, digits) = (refused.number, self.digits);
        let in_code = items
            .iter()
            .any(|item| is_answer(item) && item.in_block.is_some());
        let place = match in_code {
            true => format!(" in block {} at offset {}", refused.block, refused.offset),
            false => String::new(),
        };
        let at = sheet.at + refused.at;
        format!("{verb} by {number}{place}, file offset {at:0digits$X}")
    }

    fn note(&mut self, words: &str) {
        self.row("", "", "", &format!("# {words}"));
    }

    fn item(&mut self, sheet: Sheet, item: &Item) {
        let text = self.text_of(item);
        if item.length == 0 {
            let at = item.what.mark.as_ref().map(|_| sheet.at + item.at);
            let in_block = item.in_block.filter(|_| at.is_some());
            self.bytes(at, in_block.map(|(_, offset)| offset), &[], &text);
            return;
        }
        let bytes = sheet.bytes.get(item.at..item.at + item.length);
        let rows = bytes.unwrap_or_default().chunks(Page::BYTES_IN_ROW);
        for (number, row) in rows.enumerate() {
            let before = number * Page::BYTES_IN_ROW;
            let in_block = item.in_block.map(|(_, offset)| offset + before);
            let text = if number == 0 { text.as_str() } else { "" };
            self.bytes(Some(sheet.at + item.at + before), in_block, row, text);
        }
    }

    fn text_of(&self, item: &Item) -> String {
        let indent = Page::INDENT.repeat(item.what.depth);
        let mark = item.what.mark.as_ref().map(|mark| self.mark(mark));
        match (item.what.text.as_str(), mark) {
            (text, None) => format!("{indent}{text}"),
            ("", Some(mark)) => mark,
            (text, Some(mark)) => format!("{indent}{text}{}{mark}", Page::GAP),
        }
    }

    fn mark(&self, mark: &Mark) -> String {
        let word = match mark.is_answer && !self.is_refused {
            true => "refused by",
            false => "also",
        };
        format!("<-- {word} {}: {}", mark.number, mark.reason)
    }

    fn bytes(&mut self, at: Option<usize>, in_block: Option<usize>, bytes: &[u8], text: &str) {
        let digits = self.digits;
        let at = at.map(|at| format!("{at:0digits$X}"));
        let in_block = in_block.map(|offset| offset.to_string());
        let bytes: Vec<String> = bytes.iter().map(|byte| format!("{byte:02X}")).collect();
        let (at, in_block) = (at.unwrap_or_default(), in_block.unwrap_or_default());
        self.row(&at, &in_block, &bytes.join(" "), text);
    }

    fn row(&mut self, at: &str, in_block: &str, bytes: &str, text: &str) {
        let (gap, digits) = (Page::GAP, self.digits);
        let (block_width, bytes_width) = (Page::IN_BLOCK, Page::BYTES);
        let row = format!(
            "{at:digits$}{gap}{in_block:>block_width$}{gap}{bytes:bytes_width$}{gap}{text}"
        );
        self.text.push_str(row.trim_end());
        self.text.push('\n');
    }
}

fn is_answer(item: &Item) -> bool {
    let mark = item.what.mark.as_ref();
    mark.is_some_and(|mark| mark.is_answer)
}
