//! Where the sheets of a run came from, and how a place in them is told.

use std::ffi::OsStr;

use notation::Places;

use crate::blocks;
use crate::files;

fn typed(file: &str) -> String {
    files::typed(OsStr::new(file))
}

/// A file, and at which of its bytes a sheet or a block's code starts.
#[derive(Debug, Clone, PartialEq, Eq)]
pub struct Bytes {
    pub file: String,
    pub at: usize,
}

impl Bytes {
    pub fn new(file: &str, at: usize) -> Bytes {
        let file = file.to_string();
        Bytes { file, at }
    }

    /// Such as `deputy.bin: byte 61`.
    pub fn place(&self, offset: usize) -> String {
        format!("{}: byte {}", self.file, self.at + offset)
    }
}

/// Where a block's code came from.
#[derive(Debug, Clone, PartialEq, Eq)]
enum Code {
    /// The text of the programme, and there this block.
    Text(usize),
    Bytes(Bytes),
}

#[derive(Debug, Clone, Default)]
pub struct Sources {
    /// The store sheet as it stands in a file; none if it came of a text.
    pub store: Option<Bytes>,
    /// The programme sheet likewise; none too if blocks were put into it.
    pub programme: Option<Bytes>,
    /// The files of the run: the one with both sheets, or the programme's and the
    /// store's.
    pub files: Vec<String>,
    /// What was put in, as `NAME=FILE`.
    put_in: Vec<String>,
    text: Option<(String, Places)>,
    blocks: Vec<Code>,
}

impl Sources {
    /// The programme came of a text, with so many blocks.
    pub fn programme_text(&mut self, file: &str, places: Places, number: usize) {
        self.text = Some((file.to_string(), places));
        self.blocks = (0..number).map(Code::Text).collect();
    }

    /// The programme is this sheet.
    pub fn programme_sheet(&mut self, source: Bytes, sheet: &[u8]) {
        let starts = blocks::starts(sheet).into_iter();
        let codes = starts.map(|start| Code::Bytes(Bytes::new(&source.file, source.at + start)));
        self.blocks = codes.collect();
        self.programme = Some(source);
    }

    /// The code of this block, or of a new last one, is a file's, put in by a name.
    pub fn block(&mut self, block: usize, name: &str, file: &str) {
        self.put_in.push(format!("{name}={file}"));
        let code = Code::Bytes(Bytes::new(file, 0));
        match self.blocks.get_mut(block) {
            Some(source) => *source = code,
            None => self.blocks.push(code),
        }
        self.programme = None;
    }

    pub fn has_put_in(&self) -> bool {
        !self.put_in.is_empty()
    }

    /// With which arguments `muntyzhap dis` lists the store sheet. It cannot list
    /// what is inside a checkpoint file.
    pub fn store_listed(&self) -> Option<String> {
        let store = self.store.as_ref().filter(|store| store.at == 0)?;
        (store.file != files::STANDARD_INPUT_NAME).then(|| typed(&store.file))
    }

    /// With which it lists the programme sheet, after the store sheet or beside it, and
    /// with the blocks that were put in.
    pub fn programme_listed(&self) -> Option<String> {
        if self.has_put_in() || self.files.len() > 1 {
            return self.listed_beside();
        }
        let file = &self.programme.as_ref()?.file;
        self.store_listed().filter(|store| *store == typed(file))
    }

    /// None where one of the files was standard input, which is read.
    fn listed_beside(&self) -> Option<String> {
        let mut arguments = match &self.files[..] {
            [both] => typed(both),
            [programme, store] => format!("{} --store {}", typed(programme), typed(store)),
            _ => return None,
        };
        for put_in in &self.put_in {
            arguments += &format!(" --block {}", typed(put_in));
        }
        let is_read = arguments.contains(files::STANDARD_INPUT_NAME);
        (!is_read).then_some(arguments)
    }

    /// The place of a command, or of a byte of its code: such as `deputy.mz:6:14`
    /// or `deputy.bin: byte 61`.
    pub fn place(&self, block: usize, offset: usize) -> String {
        let in_text = |number: usize| {
            let (file, places) = self.text.as_ref()?;
            let command = places.command(number, offset);
            let place = command.or_else(|| places.block(number))?;
            Some(format!("{file}:{}:{}", place.line, place.column))
        };
        let place = match self.blocks.get(block) {
            Some(Code::Text(number)) => in_text(*number),
            Some(Code::Bytes(bytes)) => Some(bytes.place(offset)),
            None => None,
        };
        place.unwrap_or_else(|| format!("block {block}, offset {offset}"))
    }
}
