//! The command `muntyzhap`: assembles, lists, runs and explains programmes.
//!
//! The answer of a run is the library's. What is told of a step, and why one was
//! refused, is what the second runner saw, and that is held to the library.

#![deny(unsafe_code)]

mod agreement;
mod asm;
#[cfg(test)]
mod at_random;
mod blocks;
mod call;
mod carried;
mod checkpoint;
mod close;
mod commands;
mod dis;
mod ending;
mod files;
mod help;
mod hints;
mod input;
mod interrupt;
mod job;
mod journal;
mod options;
mod place;
mod plain;
mod reasons;
mod run;
mod settings;
mod setup;
mod slices;
mod sources;
mod streams;
mod table;

use std::env;
use std::process::ExitCode;

use crate::streams::Streams;

fn main() -> ExitCode {
    let mut streams = Streams::new();
    let arguments = env::args_os().skip(1).collect();
    let ended = commands::do_as_asked(arguments, &mut streams);
    // What waits to be written is written before the end is known.
    let flushed = streams.flush();
    match ended.and_then(|status| flushed.map(|()| status)) {
        Ok(status) => ExitCode::from(status as u8),
        Err(failure) => {
            streams.last(&failure);
            ExitCode::from(failure.status())
        }
    }
}
