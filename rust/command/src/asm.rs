//! `muntyzhap asm`: a text becomes sheets, or the code of its block.

use std::io::{self, IsTerminal};

use model::count;

use crate::blocks;
use crate::ending::{Ended, Failure, Status};
use crate::files;
use crate::input::{assembled, not_text};
use crate::options::Given;
use crate::streams::Streams;

/// What `-o` calls standard output.
const STANDARD_OUTPUT: &str = "-";

pub fn run(given: &Given, streams: &mut Streams) -> Ended {
    let [file] = &given.files[..] else {
        return Err(given.wrong("one text is assembled: give its file, or - for standard input"));
    };
    let out = given.value("-o");
    if out.is_none() && io::stdout().is_terminal() {
        let words = "sheets are bytes, and standard output is a terminal: give a file for them with -o FILE";
        return Err(given.wrong(words));
    }
    if out.is_some_and(|out| files::same(file, out)) {
        return Err(given.wrong("-o: the sheets would take the place of the text"));
    }
    let (name, bytes) = (files::name(file), files::read(file)?);
    if let Some(wrong) = not_text(&bytes) {
        let listed = match wrong.hint {
            Some(_) => "",
            None => "; `muntyzhap dis` lists sheets",
        };
        return Err(Failure::told(format!("{name}: {wrong}{listed}")));
    }
    let sheets = sheets(given, &name, &String::from_utf8_lossy(&bytes))?;
    match out.filter(|out| *out != STANDARD_OUTPUT) {
        Some(out) => files::write(out, &sheets)?,
        None => streams.bytes(&sheets)?,
    }
    Ok(Status::Done)
}

/// The sheets that are asked for, the store's first.
fn sheets(given: &Given, name: &str, text: &str) -> Result<Vec<u8>, Failure> {
    let only = given.word("--only")?;
    let text = assembled(name, text)?;
    let lacks = |what| Failure::told(format!("{name} has no {what}"));
    match only {
        None => Ok([text.store, text.programme]
            .into_iter()
            .flatten()
            .flatten()
            .collect()),
        Some("store") => text.store.ok_or_else(|| lacks("store")),
        Some("programme") => text.programme.ok_or_else(|| lacks("programme")),
        Some("code") => code(name, &text.programme.ok_or_else(|| lacks("programme"))?),
        Some(other) => Err(given.wrong(format!("--only: {other} is not store, programme or code"))),
    }
}

/// The code of the one block, as `--block` takes it.
fn code(name: &str, programme: &[u8]) -> Result<Vec<u8>, Failure> {
    let starts = blocks::starts(programme);
    let code = match starts[..] {
        [start] => programme.get(start..),
        _ => None,
    };
    let number = count(starts.len(), "block");
    let wrong = || {
        Failure::told(format!(
            "{name} has {number}: --only code needs a text with exactly one"
        ))
    };
    code.map(<[u8]>::to_vec).ok_or_else(wrong)
}
