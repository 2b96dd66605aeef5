//! Where the checkpoint of a run goes, and with which command the run is carried
//! on from there.

use std::ffi::{OsStr, OsString};
use std::fs;

use crate::checkpoint::Kept;
use crate::ending::{system_words, Failure};
use crate::files::{self, STANDARD_INPUT};
use crate::options::{split, Given};
use crate::settings::Settings;

/// The file that is given; else the checkpoint that the run is resumed from; else
/// the first file's name with an ending added. It is tried with the bytes of a
/// checkpoint, so that a run that cannot be kept is not begun.
pub fn find(given: &Given, settings: &Settings, bytes: &[u8]) -> Result<OsString, Failure> {
    let resume = settings.resume.as_ref();
    let resume = resume.filter(|resume| *resume != STANDARD_INPUT);
    let place = match settings.checkpoint.as_ref().or(resume) {
        Some(named) => named.clone(),
        None => usual(given),
    };
    if place.is_empty() || place == STANDARD_INPUT {
        return Err(given.wrong("--checkpoint: a checkpoint needs a file"));
    }
    let named = settings.checkpoint.is_some() || resume.is_some();
    spare(&place, named)?;
    let cannot = |error| cannot(&place, &system_words(&error));
    files::try_to_write(&place, bytes).map_err(cannot)?;
    Ok(place)
}

fn usual(given: &Given) -> OsString {
    let ending = OsStr::new(".checkpoint");
    let file = given.files.first().filter(|file| *file != STANDARD_INPUT);
    let name = file.map_or(OsStr::new("muntyzhap"), OsString::as_os_str);
    [name, ending].into_iter().collect()
}

/// A checkpoint takes the place of another where that was named, and of no other
/// file.
fn spare(place: &OsStr, named: bool) -> Result<(), Failure> {
    let Ok(found) = fs::metadata(place) else {
        return Ok(());
    };
    if found.is_dir() {
        return Err(cannot(place, "it is a directory"));
    }
    if !found.is_file() {
        return Err(cannot(place, "it is a device or a pipe"));
    }
    let (name, there) = (files::name(place), files::read(place)?);
    if !Kept::may_be(&there) {
        return Err(Failure::told(format!(
            "{name} is there and is no checkpoint: give another file with --checkpoint"
        )));
    }
    if named || there.is_empty() {
        return Ok(());
    }
    Err(Failure::told(match Kept::from_bytes(&there) {
        Ok((kept, _)) => format!(
            "{name} is there already, a checkpoint after {} steps: carry on with --resume {}, \
             or give another place with --checkpoint",
            kept.paused.steps(),
            files::typed(place)
        ),
        Err(_) => format!(
            "{name} is there already, a damaged checkpoint or one of another version: \
             give another place with --checkpoint"
        ),
    }))
}

fn cannot(place: &OsStr, words: &str) -> Failure {
    Failure::told(format!(
        "no checkpoint can be written to {}: {words}; give another place with --checkpoint",
        files::name(place)
    ))
}

/// The command that carries a run on from its checkpoint. One whose steps are all
/// spent needs more than `spent`.
pub fn carry_on(given: &Given, place: &OsStr, spent: Option<u32>) -> String {
    let mut words = vec!["muntyzhap run".to_string()];
    // What came by standard input is in the checkpoint, and there alone.
    let again = !from_standard_input(given);
    if again {
        words.extend(given.files.iter().map(|file| files::typed(file)));
        let taken = ["--sheets", "--text-input"].into_iter();
        words.extend(taken.filter(|taken| given.has(taken)).map(str::to_string));
    }
    words.push(format!("--resume {}", files::typed(place)));
    let command = words.join(" ");
    let blocks = again && given.has("--block");
    match (spent, blocks) {
        (None, false) => command,
        (None, true) => format!("{command} and the same --block"),
        (Some(steps), false) => format!("{command} --budget N, where N is above {steps}"),
        (Some(steps), true) => {
            format!("{command} --budget N, where N is above {steps}, and the same --block")
        }
    }
}

fn from_standard_input(given: &Given) -> bool {
    let files = given.files.iter().map(OsString::as_os_str);
    let blocks = given.values("--block").filter_map(|block| split(block).1);
    files.chain(blocks).any(|file| file == STANDARD_INPUT)
}
