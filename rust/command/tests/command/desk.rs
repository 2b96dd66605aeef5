//! A folder of its own for each test, in which the command is run.

use std::fs;
use std::io::Write;
use std::path::{Path, PathBuf};
use std::process::{self, Child, Command, Stdio};
use std::sync::atomic::{AtomicUsize, Ordering};
use std::thread;

/// The text that README shows.
pub const DEPUTY: &str = "\
principals nobody < digA, digB < lab
slot place  : digA = write result
slot result : digA = 0
slot curve  : lab  = 50000
block digA { place := write curve }
block lab  { [place] := 42 }
";

/// Counts up to 1000 in 2001 steps.
pub const COUNTING: &str = "\
principals lab
slot i : lab = 0
block counting : lab { while i < 1000 { i := i + 1 } }
";

/// Never ends.
pub const ENDLESS: &str = "\
principals lab
slot i : lab = 0
block lab { while true { i := i + 1 } }
";

/// What a run of the command left.
#[derive(Debug, PartialEq, Eq)]
pub struct Ran {
    pub status: Option<i32>,
    pub bytes: Vec<u8>,
    pub error: String,
}

impl Ran {
    /// Standard output as text.
    pub fn out(&self) -> &str {
        str::from_utf8(&self.bytes).expect("text")
    }

    /// Status, standard output and standard error, whole.
    #[track_caller]
    pub fn is(&self, status: i32, out: &str, error: &str) {
        assert_eq!(self.out(), out);
        assert_eq!(self.error, error);
        assert_eq!(self.status, Some(status));
    }

    /// A failure that is told in these words, with nothing on standard output.
    #[track_caller]
    pub fn fails(&self, words: &str) {
        self.is(2, "", &format!("muntyzhap: {words}\n"));
    }

    /// Status, and a part of standard output; standard error is empty.
    #[track_caller]
    pub fn says(&self, status: i32, part: &str) {
        assert!(self.out().contains(part), "{}\n{}", self.out(), self.error);
        assert_eq!((self.error.as_str(), self.status), ("", Some(status)));
    }
}

pub struct Desk {
    folder: PathBuf,
}

impl Desk {
    pub fn new() -> Desk {
        static DESKS: AtomicUsize = AtomicUsize::new(0);
        let number = DESKS.fetch_add(1, Ordering::Relaxed);
        let name = format!("muntyzhap-command-{}-{number}", process::id());
        let folder = std::env::temp_dir().join(name);
        fs::create_dir_all(&folder).expect("a folder");
        Desk { folder }
    }

    /// A desk with one file on it.
    pub fn with(name: &str, bytes: impl AsRef<[u8]>) -> Desk {
        let desk = Desk::new();
        desk.put(name, bytes);
        desk
    }

    pub fn folder(&self) -> &Path {
        &self.folder
    }

    pub fn path(&self, name: &str) -> PathBuf {
        self.folder.join(name)
    }

    pub fn put(&self, name: &str, bytes: impl AsRef<[u8]>) {
        fs::write(self.path(name), bytes).expect("a file written");
    }

    pub fn read(&self, name: &str) -> Vec<u8> {
        fs::read(self.path(name)).expect("a file")
    }

    /// The names of all files, sorted.
    pub fn files(&self) -> Vec<String> {
        let files = fs::read_dir(&self.folder).expect("the folder");
        let names = files.map(|file| file.expect("a file").file_name());
        let mut names: Vec<String> = names
            .map(|name| name.to_string_lossy().into_owned())
            .collect();
        names.sort();
        names
    }

    pub fn command(&self, arguments: &[&str]) -> Command {
        let mut command = Command::new(Path::new(env!("CARGO_BIN_EXE_muntyzhap")));
        command.args(arguments).current_dir(&self.folder);
        command
    }

    pub fn run(&self, arguments: &[&str]) -> Ran {
        self.run_with(arguments, b"")
    }

    /// With these bytes on standard input.
    pub fn run_with(&self, arguments: &[&str], input: &[u8]) -> Ran {
        let child = self
            .command(arguments)
            .stdin(Stdio::piped())
            .stdout(Stdio::piped())
            .stderr(Stdio::piped())
            .spawn()
            .expect("the command");
        ended(child, input)
    }

    /// The sheets of a text.
    pub fn sheets(&self, text: &str) -> Vec<u8> {
        let ran = self.run_with(&["asm", "-"], text.as_bytes());
        assert_eq!((ran.error.as_str(), ran.status), ("", Some(0)));
        ran.bytes
    }
}

/// Writes to a child, reads what it writes, and waits for it.
pub fn ended(mut child: Child, input: &[u8]) -> Ran {
    let stdin = child.stdin.take();
    let output = thread::scope(|scope| {
        scope.spawn(move || {
            // The command may end before it has read everything.
            stdin.map(|mut stdin| stdin.write_all(input))
        });
        child.wait_with_output().expect("its end")
    });
    Ran {
        status: output.status.code(),
        bytes: output.stdout,
        error: String::from_utf8(output.stderr).expect("text"),
    }
}

impl Drop for Desk {
    fn drop(&mut self) {
        let _ = fs::remove_dir_all(&self.folder);
    }
}
