//! Checkpoint files: where a run in slices was paused, with its sheets.
//!
//! | bytes | hold |
//! | --- | --- |
//! | 23 | the line `muntyzhap checkpoint 1`, with its line feed; 1 is the version |
//! | 4 | the rule's number |
//! | 4 | the budget |
//! | 4, and so many | the store sheet's length, and the sheet |
//! | 4, and so many | the programme sheet's length, and the sheet |
//! | 4, and so many | the output's length, and the output |
//! | 4, and so many | the pause sheet's length, and the sheet |
//!
//! Numbers have the lowest byte first, as in the sheets. Nothing follows. What the
//! parts hold is judged by the library when the run is carried on (12, 19).

use model::count;
use muntyzhap::Checkpoint;

/// The numbers of the file.
type Number = u32;

const START: &str = "muntyzhap checkpoint ";
const VERSION: &str = "1";

/// Output and pause sheet of a run that was paused, of any lengths.
#[derive(Debug, Clone, PartialEq, Eq, Default)]
pub struct Paused {
    pub out: Vec<u8>,
    pub pause: Vec<u8>,
}

impl Paused {
    /// The steps so far; 0 of a pause sheet that cannot hold them.
    pub fn steps(&self) -> u32 {
        match self.pause.first_chunk::<{ Checkpoint::STEPS_BYTES }>() {
            Some(steps) => u32::from_le_bytes(*steps),
            None => 0,
        }
    }
}

/// What a checkpoint file holds.
#[derive(Debug, Clone, PartialEq, Eq)]
pub struct Kept {
    pub rule: u32,
    pub budget: u32,
    pub store: Vec<u8>,
    pub programme: Vec<u8>,
    pub paused: Paused,
}

impl Kept {
    pub fn to_bytes(&self) -> Vec<u8> {
        let mut bytes = format!("{START}{VERSION}\n").into_bytes();
        for number in [self.rule, self.budget] {
            bytes.extend(number.to_le_bytes());
        }
        for part in self.parts() {
            // No part is longer than a file that is read, and that fits.
            bytes.extend((part.len() as Number).to_le_bytes());
            bytes.extend(part);
        }
        bytes
    }

    /// Whether these bytes start as a checkpoint does, of whatever version. So does
    /// a file that is still empty.
    pub fn may_be(bytes: &[u8]) -> bool {
        bytes.is_empty() || bytes.starts_with(START.as_bytes())
    }

    fn parts(&self) -> [&[u8]; 4] {
        let Paused { out, pause } = &self.paused;
        [&self.store, &self.programme, out, pause]
    }

    /// What these bytes hold, with the places of both sheets in them, or in words
    /// why they are no checkpoint.
    pub fn from_bytes(bytes: &[u8]) -> Result<(Kept, SheetStarts), String> {
        let mut rest = Rest::after_first_line(bytes)?;
        let rule = rest.number("the rule")?;
        let budget = rest.number("the budget")?;
        let (store_start, store) = rest.part("the store sheet")?;
        let (programme_start, programme) = rest.part("the programme sheet")?;
        let (_, out) = rest.part("the output")?;
        let (_, pause) = rest.part("the pause sheet")?;
        rest.end()?;
        let kept = Kept {
            rule,
            budget,
            store,
            programme,
            paused: Paused { out, pause },
        };
        let starts = SheetStarts {
            store: store_start,
            programme: programme_start,
        };
        Ok((kept, starts))
    }
}

/// At which bytes of a file the sheets start.
#[derive(Debug, Clone, Copy, PartialEq, Eq, Default)]
pub struct SheetStarts {
    pub store: usize,
    pub programme: usize,
}

/// A checkpoint file, read up to somewhere.
struct Rest<'a> {
    bytes: &'a [u8],
    at: usize,
}

impl<'a> Rest<'a> {
    fn after_first_line(bytes: &'a [u8]) -> Result<Rest<'a>, String> {
        let other = || format!("it does not start with the line `{START}{VERSION}`");
        let after = bytes.strip_prefix(START.as_bytes()).ok_or_else(other)?;
        let end = after.iter().position(|byte| *byte == b'\n');
        let version = &after[..end.ok_or_else(other)?];
        if version != VERSION.as_bytes() {
            let version = String::from_utf8_lossy(version);
            return Err(format!(
                "it is of version {}, and this command reads version {VERSION}",
                version.escape_debug()
            ));
        }
        let at = START.len() + VERSION.len() + 1;
        Ok(Rest { bytes, at })
    }

    fn take(&mut self, length: usize, what: &str) -> Result<&'a [u8], String> {
        let left = &self.bytes[self.at..];
        let taken = left.get(..length).ok_or_else(|| {
            format!(
                "it ends early: at byte {} come {length} bytes of {what}, and {} are left",
                self.at,
                left.len()
            )
        })?;
        self.at += length;
        Ok(taken)
    }

    fn number(&mut self, what: &str) -> Result<Number, String> {
        let bytes = self.take(size_of::<Number>(), what)?.iter().rev();
        Ok(bytes.fold(0, |higher, byte| higher << 8 | Number::from(*byte)))
    }

    /// A part, and where it starts.
    fn part(&mut self, what: &str) -> Result<(usize, Vec<u8>), String> {
        let length = self.number(&format!("the length of {what}"))?;
        let start = self.at;
        let part = self.take(length as usize, what)?;
        Ok((start, part.to_vec()))
    }

    fn end(&self) -> Result<(), String> {
        match self.bytes.len() - self.at {
            0 => Ok(()),
            left => Err(format!(
                "it goes on after its end, by {}",
                count(left, "byte")
            )),
        }
    }
}

#[cfg(test)]
mod tests {
    use super::*;

    fn kept() -> Kept {
        Kept {
            rule: 255,
            budget: 1000,
            store: vec![1, 2, 3],
            programme: vec![4, 5],
            paused: Paused {
                out: vec![],
                pause: vec![0x2A, 1, 0, 0, 9],
            },
        }
    }

    #[test]
    fn a_checkpoint_comes_back_with_the_places_of_its_sheets() {
        let bytes = kept().to_bytes();
        let (read, starts) = Kept::from_bytes(&bytes).expect("a checkpoint");
        assert_eq!(read, kept());
        assert_eq!(read.paused.steps(), 298);
        assert_eq!(bytes[starts.store..][..3], [1, 2, 3]);
        assert_eq!(bytes[starts.programme..][..2], [4, 5]);
    }

    #[test]
    fn its_bytes_are_as_documented() {
        let bytes = kept().to_bytes();
        let (line, rest) = bytes.split_at(23);
        assert_eq!(line, b"muntyzhap checkpoint 1\n");
        let expected = [
            &[255, 0, 0, 0, 0xE8, 3, 0, 0][..],
            &[3, 0, 0, 0, 1, 2, 3],
            &[2, 0, 0, 0, 4, 5],
            &[0, 0, 0, 0],
            &[5, 0, 0, 0, 0x2A, 1, 0, 0, 9],
        ];
        assert_eq!(rest, expected.concat());
    }

    #[test]
    fn every_shorter_or_longer_file_is_told() {
        let mut bytes = kept().to_bytes();
        for length in 0..bytes.len() {
            let told = Kept::from_bytes(&bytes[..length]).expect_err("cut");
            let early = told.starts_with("it ends early: ");
            assert_eq!(early, length >= 23, "{length}: {told}");
        }
        bytes.extend([0; 3]);
        let told = Kept::from_bytes(&bytes).expect_err("too long");
        assert_eq!(told, "it goes on after its end, by 3 bytes");
    }

    #[test]
    fn other_versions_and_other_files_are_told() {
        let cases = [
            (
                &b"muntyzhap checkpoint 2\n"[..],
                "it is of version 2, and this command reads version 1",
            ),
            (
                b"muntyzhap checkpoint 1 \n",
                "it is of version 1 , and this command reads version 1",
            ),
            (
                b"principals a\n",
                "it does not start with the line `muntyzhap checkpoint 1`",
            ),
            (
                b"",
                "it does not start with the line `muntyzhap checkpoint 1`",
            ),
        ];
        for (bytes, expected) in cases {
            assert_eq!(Kept::from_bytes(bytes).expect_err("other"), expected);
        }
        let huge = [b"muntyzhap checkpoint 1\n", &[0; 8][..], &[0xFF; 4]].concat();
        let told = Kept::from_bytes(&huge).expect_err("cut");
        assert!(
            told.contains("4294967295 bytes of the store sheet, and 0 are left"),
            "{told}"
        );
    }

    #[test]
    fn a_pause_sheet_that_is_too_short_has_no_steps() {
        assert_eq!(Paused::default().steps(), 0);
    }
}
