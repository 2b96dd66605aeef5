//! The proved printing program, run as a process.

use std::env;
use std::io::{self, ErrorKind, Write};
use std::path::{Path, PathBuf};
use std::process::{ChildStdin, Command, ExitStatus, Stdio};
use std::thread;

/// Where the program is, if not where `rt run` and `rt ci` put it.
const PATH_VARIABLE: &str = "MUNTYZHAP_BLOCKRUN";
const PATH: &str = "../../crates/blockrun/out/blockrun";

/// What is seen of the program.
#[derive(Debug, Clone)]
pub struct Printed {
    pub bytes: Vec<u8>,
    pub status: ExitStatus,
    /// It ended before it had read all of its input.
    pub left_unread: bool,
}

#[derive(Debug, Clone)]
pub struct Program {
    path: PathBuf,
}

impl Program {
    pub fn find() -> io::Result<Program> {
        let path = match env::var_os(PATH_VARIABLE) {
            Some(path) => PathBuf::from(path),
            None => Path::new(env!("CARGO_MANIFEST_DIR")).join(PATH),
        };
        let found = path.canonicalize();
        let path = found.map_err(|error| in_words(&path, "isn't there", error))?;
        Ok(Program { path })
    }

    /// Runs the program on this standard input.
    pub fn print(&self, input: &[u8]) -> io::Result<Printed> {
        let printed = self.run(input);
        printed.map_err(|error| in_words(&self.path, "can't be run", error))
    }

    /// A thread of its own writes the input, so that the program may print
    /// before it has read all of it.
    fn run(&self, input: &[u8]) -> io::Result<Printed> {
        let mut child = Command::new(&self.path)
            .stdin(Stdio::piped())
            .stdout(Stdio::piped())
            .spawn()?;
        let stdin = child.stdin.take().expect("a pipe was asked for");
        thread::scope(|scope| {
            let writer = scope.spawn(|| write_to(stdin, input));
            let ended = child.wait_with_output()?;
            let left_unread = writer.join().expect("writing doesn't panic")?;
            Ok(Printed {
                bytes: ended.stdout,
                status: ended.status,
                left_unread,
            })
        })
    }
}

/// Writes the input, and says whether its reader stopped before the end.
fn write_to(mut stdin: ChildStdin, input: &[u8]) -> io::Result<bool> {
    match stdin.write_all(input) {
        Err(error) if error.kind() == ErrorKind::BrokenPipe => Ok(true),
        written => written.map(|()| false),
    }
}

fn in_words(path: &Path, what: &str, error: io::Error) -> io::Error {
    let path = path.display();
    let words = format!(
        "{path} {what} ({error}): run `rt run` in crates/blockrun, \
         or set {PATH_VARIABLE} to where the program is"
    );
    io::Error::new(error.kind(), words)
}

#[cfg(test)]
mod tests {
    use super::*;

    /// Long enough to fill a pipe many times.
    const LENGTH: usize = 1 << 20;

    fn printed_by(program: &str) -> Printed {
        let path = PathBuf::from(program);
        let printed = Program { path }.print(&[7; LENGTH]);
        printed.expect("the program runs")
    }

    #[test]
    fn a_program_may_write_while_it_reads() {
        let printed = printed_by("cat");
        assert_eq!(printed.bytes, [7; LENGTH]);
        assert!(printed.status.success() && !printed.left_unread);
    }

    #[test]
    fn a_program_may_stop_reading() {
        let printed = printed_by("false");
        assert!(printed.bytes.is_empty() && printed.left_unread);
        assert!(!printed.status.success());
    }

    #[test]
    fn a_program_that_cannot_be_run_is_an_error() {
        let path = PathBuf::from("no such program");
        let error = Program { path }.print(&[]).expect_err("no program");
        assert!(error.to_string().contains("rt run"), "{error}");
    }
}
