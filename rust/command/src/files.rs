//! Files: read up to a limit, and written whole or not at all.

use std::ffi::OsStr;
use std::fs::{self, File, OpenOptions};
use std::io::{self, Read, Write};
use std::path::{Path, PathBuf};
use std::process;

use crate::ending::Failure;

/// The most bytes that a file is read to. Good sheets have some 19,000 bytes,
/// their texts not many more.
pub const MOST_BYTES: usize = 4 << 20;

/// The name of standard input among the arguments, and in messages.
pub const STANDARD_INPUT: &str = "-";
pub const STANDARD_INPUT_NAME: &str = "standard input";

/// How a file is called in messages.
pub fn name(path: &OsStr) -> String {
    match path == STANDARD_INPUT {
        true => STANDARD_INPUT_NAME.to_string(),
        false => path.to_string_lossy().into_owned(),
    }
}

/// All the bytes of a file, or of standard input.
pub fn read(path: &OsStr) -> Result<Vec<u8>, Failure> {
    let name = name(path);
    let bytes = match path == STANDARD_INPUT {
        true => read_from(io::stdin().lock()),
        false => File::open(path).and_then(read_from),
    };
    let bytes = bytes.map_err(|error| Failure::of(&name, &error))?;
    match bytes.len() > MOST_BYTES {
        true => Err(Failure::told(format!(
            "{name}: larger than {MOST_BYTES} bytes, and no good input is"
        ))),
        false => Ok(bytes),
    }
}

/// One byte more than the most, if there are more.
fn read_from(file: impl Read) -> io::Result<Vec<u8>> {
    let mut bytes = Vec::new();
    file.take(MOST_BYTES as u64 + 1).read_to_end(&mut bytes)?;
    Ok(bytes)
}

/// Writes a file whole: to another beside it, which is then renamed. So the file
/// has its old bytes or the new ones, whatever happens. What is no regular file,
/// such as a device or a pipe, is written to as it is.
pub fn write(path: &OsStr, bytes: &[u8]) -> Result<(), Failure> {
    let written = match fs::metadata(path) {
        Ok(found) if !found.is_file() => write_to_device(path, bytes),
        // The file that a link leads to, and not the link, is replaced.
        Ok(_) => fs::canonicalize(path).and_then(|file| replace(&file, bytes)),
        Err(_) => replace(Path::new(path), bytes),
    };
    written.map_err(|error| Failure::of(&name(path), &error))
}

/// Whether both are the same file, by whatever names.
pub fn same(one: &OsStr, other: &OsStr) -> bool {
    let regular = |path| fs::canonicalize(path).ok().filter(|path| path.is_file());
    regular(one).is_some_and(|one| Some(one) == regular(other))
}

fn write_to_device(path: &OsStr, bytes: &[u8]) -> io::Result<()> {
    let mut device = OpenOptions::new().write(true).open(path)?;
    device.write_all(bytes)?;
    device.flush()
}

/// Tries whether a regular file, there or not yet, can be [written](write): fills
/// one beside it, and removes that again.
pub fn try_to_write(path: &OsStr, bytes: &[u8]) -> io::Result<()> {
    let file = match fs::metadata(path) {
        Ok(_) => fs::canonicalize(path)?,
        Err(_) => PathBuf::from(path),
    };
    put_beside(&file, bytes, |beside| fs::remove_file(beside))
}

fn replace(file: &Path, bytes: &[u8]) -> io::Result<()> {
    put_beside(file, bytes, |beside| fs::rename(beside, file))
}

/// Fills a new file beside this one, and does something with it.
fn put_beside(
    file: &Path,
    bytes: &[u8],
    then: impl FnOnce(&Path) -> io::Result<()>,
) -> io::Result<()> {
    let beside = beside(file)?;
    let new = OpenOptions::new()
        .write(true)
        .create_new(true)
        .open(&beside)?;
    let done = fill(new, file, bytes).and_then(|()| then(&beside));
    if done.is_err() {
        // What could not be written whole is not left over. Where that fails as
        // well, the first error is the one to tell.
        let _ = fs::remove_file(&beside);
    }
    done
}

/// Fills a new file, with the permissions of the one that it will replace.
fn fill(mut new: File, old: &Path, bytes: &[u8]) -> io::Result<()> {
    new.write_all(bytes)?;
    if let Ok(found) = fs::metadata(old) {
        new.set_permissions(found.permissions())?;
    }
    new.sync_all()
}

/// A name in the same folder that no other process takes.
fn beside(file: &Path) -> io::Result<PathBuf> {
    let no_name = || io::Error::from(io::ErrorKind::InvalidFilename);
    let mut name = file.file_name().ok_or_else(no_name)?.to_os_string();
    name.push(format!(".{}.new", process::id()));
    Ok(file.with_file_name(name))
}

/// A file's name as it is typed in a shell.
pub fn typed(file: &OsStr) -> String {
    let name = file.to_string_lossy();
    let plain = |letter: char| letter.is_alphanumeric() || "_./,:@%+-=".contains(letter);
    let name = match name.starts_with('-') {
        true => format!("./{name}"),
        false => name.into_owned(),
    };
    match !name.is_empty() && name.chars().all(plain) {
        true => name,
        false => format!("'{}'", name.replace('\'', "'\\''")),
    }
}

#[cfg(test)]
mod tests {
    use super::*;

    #[test]
    fn names_are_quoted_for_a_shell() {
        let cases = [
            ("count.mz", "count.mz"),
            ("../a_b/c-1,2:3@4%5+6", "../a_b/c-1,2:3@4%5+6"),
            ("digA=customer.bin", "digA=customer.bin"),
            ("two words", "'two words'"),
            ("it's", "'it'\\''s'"),
            ("$x", "'$x'"),
            ("-x", "./-x"),
            ("", "''"),
        ];
        for (name, expected) in cases {
            assert_eq!(typed(OsStr::new(name)), expected);
        }
    }
}
