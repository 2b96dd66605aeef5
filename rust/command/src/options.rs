//! The arguments of a command: files, and options with values or without.

use std::ffi::{OsStr, OsString};
use std::os::unix::ffi::OsStrExt;

use crate::close::perhaps;
use crate::ending::Failure;

/// An option that a command knows.
#[derive(Debug, Clone, Copy, PartialEq, Eq)]
pub struct Known {
    pub name: &'static str,
    pub takes: Takes,
}

#[derive(Debug, Clone, Copy, PartialEq, Eq)]
pub enum Takes {
    Nothing,
    Value,
    /// A value, and it may be given again.
    Values,
}

impl Known {
    pub const fn flag(name: &'static str) -> Known {
        let takes = Takes::Nothing;
        Known { name, takes }
    }

    pub const fn value(name: &'static str) -> Known {
        let takes = Takes::Value;
        Known { name, takes }
    }

    pub const fn values(name: &'static str) -> Known {
        let takes = Takes::Values;
        Known { name, takes }
    }
}

/// What a command was given.
#[derive(Debug, Clone, Default)]
pub struct Given {
    /// The command's name.
    pub command: &'static str,
    pub files: Vec<OsString>,
    options: Vec<(&'static str, OsString)>,
}

impl Given {
    pub fn has(&self, name: &str) -> bool {
        self.value(name).is_some()
    }

    pub fn value(&self, name: &str) -> Option<&OsStr> {
        self.values(name).next()
    }

    /// The values of an option that may be given again, in their order.
    pub fn values<'a, 'n>(
        &'a self,
        name: &'n str,
    ) -> impl Iterator<Item = &'a OsStr> + use<'a, 'n> {
        let named = self.options.iter().filter(move |(given, _)| *given == name);
        named.map(|(_, value)| value.as_os_str())
    }

    /// A value that is a word.
    pub fn word(&self, name: &str) -> Result<Option<&str>, Failure> {
        let Some(value) = self.value(name) else {
            return Ok(None);
        };
        let word = value.to_str();
        let wrong = || self.wrong(format!("{name}: {} is no word", value.to_string_lossy()));
        word.map(Some).ok_or_else(wrong)
    }

    /// A value that is a number.
    pub fn number(&self, name: &str) -> Result<Option<u32>, Failure> {
        let Some(word) = self.word(name)? else {
            return Ok(None);
        };
        let digits = !word.is_empty() && word.bytes().all(|byte| byte.is_ascii_digit());
        let number = word.parse().ok().filter(|_| digits);
        let wrong = || {
            let most = u32::MAX;
            self.wrong(format!("{name}: {word} is no number from 0 to {most}"))
        };
        number.map(Some).ok_or_else(wrong)
    }

    pub fn wrong(&self, words: impl AsRef<str>) -> Failure {
        Failure::usage(self.command, words)
    }

    /// Refuses two options that do not go together.
    pub fn not_both(&self, one: &str, other: &str, why: &str) -> Result<(), Failure> {
        match self.has(one) && self.has(other) {
            true => Err(self.wrong(format!("{one} and {other} do not go together: {why}"))),
            false => Ok(()),
        }
    }
}

/// Sorts the arguments of a command. `--` ends the options; `-` alone is a file.
pub fn sort(
    command: &'static str,
    known: &[Known],
    arguments: impl IntoIterator<Item = OsString>,
) -> Result<Given, Failure> {
    let mut given = Given {
        command,
        ..Given::default()
    };
    let mut arguments = arguments.into_iter();
    while let Some(argument) = arguments.next() {
        if argument == "--" {
            given.files.extend(arguments);
            break;
        }
        match argument.as_bytes() {
            [b'-', _, ..] => option(&mut given, known, &argument, &mut arguments)?,
            _ => given.files.push(argument),
        }
    }
    Ok(given)
}

/// Takes one option, `--name value` or `--name=value`.
fn option(
    given: &mut Given,
    known: &[Known],
    argument: &OsStr,
    rest: &mut impl Iterator<Item = OsString>,
) -> Result<(), Failure> {
    let (name, value) = split(argument);
    let found = known.iter().find(|known| name == known.name);
    let Some(Known { name, takes }) = found.copied() else {
        let name = name.to_string_lossy();
        let names = known.iter().map(|known| known.name);
        let perhaps = perhaps(&name, names);
        let words = format!("{} has no option {name}{perhaps}", given.command);
        return Err(given.wrong(words));
    };
    if takes != Takes::Values && given.has(name) {
        return Err(given.wrong(format!("{name} is given twice")));
    }
    let value = match (takes, value) {
        (Takes::Nothing, Some(_)) => return Err(given.wrong(format!("{name} takes no value"))),
        (Takes::Nothing, None) => OsString::new(),
        (_, Some(value)) => value.to_os_string(),
        (_, None) => {
            let none = || given.wrong(format!("{name} needs a value after it"));
            rest.next().ok_or_else(none)?
        }
    };
    given.options.push((name, value));
    Ok(())
}

/// A word and what is after its first equals sign, if it has one.
pub fn split(argument: &OsStr) -> (&OsStr, Option<&OsStr>) {
    let bytes = argument.as_bytes();
    match bytes.iter().position(|byte| *byte == b'=') {
        Some(equals) => {
            let (word, value) = (&bytes[..equals], &bytes[equals + 1..]);
            (OsStr::from_bytes(word), Some(OsStr::from_bytes(value)))
        }
        None => (argument, None),
    }
}

#[cfg(test)]
mod tests {
    use super::*;

    const KNOWN: [Known; 3] = [
        Known::flag("--plain"),
        Known::value("--rule"),
        Known::values("--block"),
    ];

    fn sorted(arguments: &[&str]) -> Result<Given, String> {
        let arguments = arguments.iter().map(OsString::from);
        sort("run", &KNOWN, arguments).map_err(|failure| match failure {
            Failure::Told(words) => words.lines().next().unwrap_or_default().to_string(),
            _ => String::new(),
        })
    }

    #[test]
    fn values_stand_after_a_space_or_an_equals_sign() {
        for arguments in [&["--rule", "full", "a"][..], &["a", "--rule=full"]] {
            let given = sorted(arguments).expect("good arguments");
            assert_eq!(given.word("--rule"), Ok(Some("full")));
            assert_eq!(given.files, ["a"]);
            assert!(!given.has("--plain"));
        }
    }

    #[test]
    fn options_end_at_two_dashes_and_one_dash_is_a_file() {
        let given = sorted(&["-", "--plain", "--", "--rule", "--"]).expect("good arguments");
        assert_eq!(given.files, ["-", "--rule", "--"]);
        assert!(given.has("--plain") && !given.has("--rule"));
    }

    #[test]
    fn what_may_be_given_again_is_kept_in_order() {
        let given = sorted(&["--block", "a=b=c", "--block=d=e"]).expect("good arguments");
        let blocks: Vec<_> = given.values("--block").map(split).collect();
        let expected = [("a", "b=c"), ("d", "e")];
        let expected = expected.map(|(name, file)| (OsStr::new(name), Some(OsStr::new(file))));
        assert_eq!(blocks, expected);
    }

    #[test]
    fn wrong_options_are_told() {
        let cases = [
            (
                &["--rul", "3"][..],
                "run has no option --rul; did you mean `--rule`?",
            ),
            (&["-x"], "run has no option -x"),
            (&["--rule"], "--rule needs a value after it"),
            (&["--plain=yes"], "--plain takes no value"),
            (&["--rule", "1", "--rule=2"], "--rule is given twice"),
            (&["--plain", "--plain"], "--plain is given twice"),
        ];
        for (arguments, expected) in cases {
            assert_eq!(sorted(arguments).expect_err("wrong"), expected);
        }
    }

    #[test]
    fn numbers_are_digits() {
        let cases = [
            ("0", Some(0)),
            ("4294967295", Some(u32::MAX)),
            ("4294967296", None),
            ("-1", None),
            ("+1", None),
            ("", None),
            ("1e6", None),
        ];
        for (word, expected) in cases {
            let given = sorted(&[&format!("--rule={word}")]).expect("good arguments");
            assert_eq!(given.number("--rule").ok().flatten(), expected, "{word}");
        }
    }
}
