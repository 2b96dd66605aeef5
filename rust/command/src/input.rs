//! Files that are texts or sheets.

use std::ffi::OsStr;
use std::fmt::{self, Display, Formatter};

use model::count;
use notation::Assembled;

use crate::ending::Failure;
use crate::files;
use crate::hints;
use crate::options::Given;

/// What a file is taken for.
#[derive(Debug, Clone, Copy, PartialEq, Eq)]
pub enum Taken {
    AsItLooks,
    Text,
    Sheets,
}

impl Taken {
    pub fn of(given: &Given) -> Result<Taken, Failure> {
        given.not_both("--sheets", "--text-input", "a file is one or the other")?;
        Ok(match (given.has("--sheets"), given.has("--text-input")) {
            (true, _) => Taken::Sheets,
            (_, true) => Taken::Text,
            _ => Taken::AsItLooks,
        })
    }
}

/// A file, by how it is called.
pub struct Input {
    pub name: String,
    pub content: Content,
    /// Why a file that is taken for sheets may have been meant as text.
    pub doubt: Option<String>,
}

pub enum Content {
    Text(String),
    Sheets(Vec<u8>),
}

impl Input {
    pub fn read(path: &OsStr, taken: Taken) -> Result<Input, Failure> {
        let (name, bytes) = (files::name(path), files::read(path)?);
        let wrong = not_text(&bytes);
        let mut doubt = None;
        let content = match (taken, wrong) {
            (Taken::Sheets, _) => Content::Sheets(bytes),
            (_, None) => Content::Text(String::from_utf8_lossy(&bytes).into_owned()),
            (Taken::Text, Some(wrong)) => return Err(Failure::told(format!("{name}: {wrong}"))),
            (Taken::AsItLooks, Some(wrong)) => {
                let meant = wrong.hint.is_some() && !hints::are_sheets(&bytes);
                doubt = meant.then(|| format!("{name} is taken for sheets, as it is {wrong}"));
                Content::Sheets(bytes)
            }
        };
        Ok(Input {
            name,
            content,
            doubt,
        })
    }
}

/// Why some bytes are no text: the first that is none, and what to do if they
/// were meant as text.
#[derive(Debug, Clone, Copy, PartialEq, Eq)]
pub struct NotText {
    byte: u8,
    at: usize,
    /// Line and column, where most of the bytes are text.
    place: Option<(usize, usize)>,
    pub hint: Option<&'static str>,
}

impl Display for NotText {
    fn fmt(&self, out: &mut Formatter) -> fmt::Result {
        let NotText { byte, at, .. } = self;
        write!(out, "not text: byte {byte:02X} at offset {at}")?;
        if let Some((line, column)) = self.place {
            write!(out, " (line {line}, column {column})")?;
        }
        match self.hint {
            Some(hint) => write!(out, "; {hint}"),
            None => Ok(()),
        }
    }
}

/// A file is no text if it is not UTF-8, or has a control byte other than tab,
/// line feed and carriage return. Good sheets always have one.
pub fn not_text(bytes: &[u8]) -> Option<NotText> {
    let control = bytes.iter().position(is_control);
    let other = str::from_utf8(bytes).err().map(|error| error.valid_up_to());
    let at = [control, other].into_iter().flatten().min()?;
    let mostly = is_mostly_text(bytes, other.is_none());
    let hint = match bytes {
        [0xFF, 0xFE, ..] | [0xFE, 0xFF, ..] => Some("it looks like UTF-16: save it as UTF-8"),
        _ if control == Some(at) => mostly.then_some("if it is text, take that byte out"),
        _ if mostly || control.is_none() => Some("if it is text, save it as UTF-8"),
        _ => None,
    };
    let (before, byte) = (bytes.get(..at)?, *bytes.get(at)?);
    let place = mostly.then(|| place_after(before));
    Some(NotText {
        byte,
        at,
        place,
        hint,
    })
}

fn is_control(byte: &u8) -> bool {
    matches!(byte, 0..0x20 | 0x7F) && !b"\t\n\r".contains(byte)
}

/// Whether at most one byte of eight is a control byte, or outside of ASCII in what
/// is not UTF-8.
fn is_mostly_text(bytes: &[u8], is_utf8: bool) -> bool {
    let strange = |byte: &&u8| is_control(byte) || !(is_utf8 || byte.is_ascii());
    bytes.iter().filter(strange).count() <= bytes.len() / 8
}

/// The line and the column after these bytes, which are text; both are counted as
/// the notation counts them.
fn place_after(bytes: &[u8]) -> (usize, usize) {
    let text = String::from_utf8_lossy(bytes).replace("\r\n", "\n");
    let text = text.trim_start_matches('\u{FEFF}');
    let lines = text.split(['\n', '\r']);
    let last = lines.clone().next_back().unwrap_or_default();
    (lines.count(), last.chars().count() + 1)
}

/// What a text says, or all its errors.
pub fn assembled(name: &str, text: &str) -> Result<Assembled, Failure> {
    notation::assemble(text).map_err(|errors| {
        let lines = errors.iter().map(|error| format!("{name}:{error}\n"));
        let number = count(errors.iter().map(|error| error.number).sum(), "error");
        Failure::Text(format!("{}{name}: {number}", lines.collect::<String>()))
    })
}

#[cfg(test)]
mod tests {
    use super::*;

    #[test]
    fn texts_are_told_from_sheets() {
        let texts = [&b""[..], b"a\tb\r\n", "\u{FEFF}\u{E4} \u{85}".as_bytes()];
        for text in texts {
            assert_eq!(not_text(text), None);
        }
        let others = [
            (&b"\x02\x00"[..], "not text: byte 02 at offset 0"),
            (b"ab\x7F", "not text: byte 7F at offset 2"),
            (b"a\x1F\xFF", "not text: byte 1F at offset 1"),
            (
                b"lines\r\nand\ra\tNUL\0 byte",
                "not text: byte 00 at offset 16 (line 3, column 6); if it is text, take that byte out",
            ),
            (
                "\u{FEFF}\u{E4}\u{E4}\u{E4}\u{E4}\x1B".as_bytes(),
                "not text: byte 1B at offset 11 (line 1, column 5); if it is text, take that byte out",
            ),
            (
                b"both \xE4 a byte and\x0C a form feed",
                "not text: byte E4 at offset 5 (line 1, column 6); if it is text, save it as UTF-8",
            ),
            (
                b"a\xE4b",
                "not text: byte E4 at offset 1; if it is text, save it as UTF-8",
            ),
            (
                b"\xFF\xFEp\0",
                "not text: byte FF at offset 0; it looks like UTF-16: save it as UTF-8",
            ),
        ];
        for (bytes, expected) in others {
            let told = not_text(bytes).map(|wrong| wrong.to_string());
            assert_eq!(told.as_deref(), Some(expected));
        }
    }
}
