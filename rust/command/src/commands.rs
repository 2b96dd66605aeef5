//! The commands, with the options that each knows.

use std::ffi::OsString;

use crate::close::perhaps;
use crate::ending::{Ended, Failure, Status};
use crate::options::{sort, Given, Known};
use crate::streams::Streams;
use crate::{asm, dis, help, journal, run};

struct Command {
    name: &'static str,
    known: &'static [Known],
    help: &'static str,
    run: fn(&Given, &mut Streams) -> Ended,
}

const RULE: Known = Known::value("--rule");
const BUDGET: Known = Known::value("--budget");
const BLOCK: Known = Known::values("--block");
const ENTRIES: Known = Known::value("--entries");
const TRACE: Known = Known::flag("--trace");
const RESUME: Known = Known::value("--resume");
const SHEETS: Known = Known::flag("--sheets");
const TEXT_INPUT: Known = Known::flag("--text-input");

const COMMANDS: [Command; 6] = [
    Command {
        name: "run",
        known: &[
            RULE,
            BUDGET,
            BLOCK,
            ENTRIES,
            Known::flag("--plain"),
            TRACE,
            Known::value("--slice"),
            Known::value("--checkpoint"),
            RESUME,
            SHEETS,
            TEXT_INPUT,
        ],
        help: help::RUN,
        run: run::run,
    },
    Command {
        name: "explain",
        known: &[
            RULE, BUDGET, BLOCK, ENTRIES, TRACE, RESUME, SHEETS, TEXT_INPUT,
        ],
        help: help::EXPLAIN,
        run: run::explain,
    },
    Command {
        name: "journal",
        known: &[
            RULE,
            BUDGET,
            BLOCK,
            ENTRIES,
            TRACE,
            SHEETS,
            TEXT_INPUT,
            Known::value("--by"),
        ],
        help: help::JOURNAL,
        run: journal::run,
    },
    Command {
        name: "asm",
        known: &[Known::value("-o"), Known::value("--only")],
        help: help::ASM,
        run: asm::run,
    },
    Command {
        name: "dis",
        known: &[
            Known::flag("--text"),
            Known::value("--store"),
            Known::flag("--programme-only"),
            Known::value("--principals"),
            Known::value("--slots"),
            BLOCK,
            SHEETS,
            TEXT_INPUT,
        ],
        help: help::DIS,
        run: dis::run,
    },
    Command {
        name: "help",
        known: &[],
        help: help::HELP,
        run: tell,
    },
];

/// What asks for help, or for the version, wherever it stands.
const HELP: [&str; 2] = ["--help", "-h"];
const VERSION: &str = "--version";

/// Does what the arguments ask for.
pub fn do_as_asked(arguments: Vec<OsString>, streams: &mut Streams) -> Ended {
    let mut arguments = arguments.into_iter();
    let Some(name) = arguments.next() else {
        let words = "which command? `muntyzhap help` says what there is";
        return Err(Failure::told(words));
    };
    if HELP.iter().any(|help| name == *help) {
        return say(help::ALL, streams);
    }
    if name == VERSION {
        let (version, library) = (env!("CARGO_PKG_VERSION"), muntyzhap::version());
        return say(
            &format!("muntyzhap {version}, library {library}\n"),
            streams,
        );
    }
    let command = find(&name.to_string_lossy())?;
    let arguments: Vec<OsString> = arguments.collect();
    let mut options = arguments.iter().take_while(|argument| *argument != "--");
    if options.any(|argument| HELP.iter().any(|help| argument == help)) {
        return say(command.help, streams);
    }
    let given = sort(command.name, command.known, arguments)?;
    (command.run)(&given, streams)
}

fn find(name: &str) -> Result<&'static Command, Failure> {
    let names = COMMANDS.iter().map(|command| command.name);
    let unknown = || {
        let perhaps = perhaps(name, names);
        Failure::told(format!(
            "{name} is no command{perhaps}\n`muntyzhap help` says what there is"
        ))
    };
    let mut commands = COMMANDS.iter();
    let found = commands.find(|command| command.name == name);
    found.ok_or_else(unknown)
}

/// `muntyzhap help`, perhaps of a command.
fn tell(given: &Given, streams: &mut Streams) -> Ended {
    match &given.files[..] {
        [] => say(help::ALL, streams),
        [name] => say(find(&name.to_string_lossy())?.help, streams),
        _ => Err(given.wrong("help is given of one command")),
    }
}

fn say(text: &str, streams: &mut Streams) -> Ended {
    streams.say(text)?;
    Ok(Status::Done)
}

#[cfg(test)]
mod tests {
    use super::*;

    #[test]
    fn each_option_is_in_its_commands_help() {
        for command in &COMMANDS {
            for known in command.known {
                assert!(command.help.contains(known.name), "{}", known.name);
            }
        }
    }

    #[test]
    fn help_is_of_this_width_at_most() {
        let texts = COMMANDS
            .iter()
            .map(|command| command.help)
            .chain([help::ALL]);
        for line in texts.flat_map(str::lines) {
            assert!(line.chars().count() <= 100, "{line}");
        }
    }
}
