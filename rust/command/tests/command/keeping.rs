//! Where checkpoints go, and places where they cannot.

use std::fs::{self, Permissions};
use std::io::{BufRead, BufReader, Read};
use std::os::unix::fs::PermissionsExt;
use std::process::{Child, Stdio};

use crate::desk::{ended, Desk, Ran, COUNTING, ENDLESS};
use crate::slicing::{endless, signal, SPENT};

/// A run from the start does not take the place of a checkpoint that it was not
/// told of.
#[test]
fn a_checkpoint_is_not_overwritten_in_silence() {
    let desk = Desk::with("counting.mz", COUNTING);
    let run = ["run", "counting.mz", "--slice=400", "--budget=1000"];
    desk.run(&run);
    let kept = desk.read("counting.mz.checkpoint");
    desk.run(&run).fails(
        "counting.mz.checkpoint is there already, a checkpoint after 1000 steps: carry on with \
         --resume counting.mz.checkpoint, or give another place with --checkpoint",
    );
    assert_eq!(desk.read("counting.mz.checkpoint"), kept);
    let named = ["--checkpoint=counting.mz.checkpoint", "--rule=0"];
    let ran = desk.run(&[&run[..], &named].concat());
    assert_eq!((ran.out(), ran.status), (SPENT, Some(1)));
    assert_ne!(desk.read("counting.mz.checkpoint"), kept);
    desk.put("counting.mz.checkpoint", &kept[..30]);
    desk.run(&run).fails(
        "counting.mz.checkpoint is there already, a damaged checkpoint or one of another version: \
         give another place with --checkpoint",
    );
    // An empty file loses nothing.
    desk.put("counting.mz.checkpoint", "");
    assert_eq!(desk.run(&run).out(), SPENT);
    assert_eq!(desk.read("counting.mz.checkpoint"), kept);
    desk.put("counting.mz.checkpoint", "notes");
    desk.run(&run).fails(
        "counting.mz.checkpoint is there and is no checkpoint: give another file with --checkpoint",
    );
}

/// Nothing is run then: there is no line of progress and no answer.
#[test]
fn a_checkpoint_that_cannot_be_written_is_told_at_once() {
    let desk = Desk::with("counting.mz", COUNTING);
    fs::create_dir(desk.path("folder")).expect("a folder");
    for (file, words) in [
        ("none/c", "No such file or directory"),
        ("counting.mz/c", "Not a directory"),
        ("folder", "it is a directory"),
        ("/dev/full", "it is a device or a pipe"),
        ("/dev/null", "it is a device or a pipe"),
    ] {
        for option in ["--budget=10", "--slice=10"] {
            let ran = desk.run(&["run", "counting.mz", option, "--checkpoint", file]);
            ran.fails(&format!(
                "no checkpoint can be written to {file}: {words}; give another place with --checkpoint"
            ));
        }
    }
    assert_eq!(desk.files(), ["counting.mz", "folder"]);
}

#[test]
fn a_folder_that_cannot_be_written_is_told_at_once() {
    let desk = Desk::with("counting.mz", COUNTING);
    let folder = desk.path("folder");
    fs::create_dir(&folder).expect("a folder");
    fs::set_permissions(&folder, Permissions::from_mode(0o555)).expect("a mode");
    if fs::write(folder.join("x"), "").is_ok() {
        return; // A user who may write everywhere.
    }
    desk.run(&["run", "counting.mz", "--slice=10", "--checkpoint=folder/c"])
        .fails("no checkpoint can be written to folder/c: Permission denied; give another place with --checkpoint");
}

/// What stands in the way of a checkpoint only when it is written, after a signal.
fn pauses_in_vain(desk: &Desk, in_the_way: impl FnOnce(&Child)) -> Ran {
    let mut child = endless(desk, &["--slice=10", "--checkpoint=sub/kept"]);
    let mut error = BufReader::new(child.stderr.take().expect("a pipe"));
    let mut told = String::new();
    error.read_line(&mut told).expect("a line");
    in_the_way(&child);
    signal(&child, "-INT");
    error.read_to_string(&mut told).expect("the rest");
    let mut ran = ended(child, b"");
    let told = told.lines().filter(|line| !line.contains(" of 1000000 "));
    ran.error = told.map(|line| format!("{line}\n")).collect();
    ran
}

fn not_kept(ran: &Ran, words: &str) {
    let steps = ran.out().strip_prefix("paused after ").expect("a pause");
    assert!(steps.ends_with(" steps: it is not kept\n"), "{ran:?}");
    let words = format!("muntyzhap: the checkpoint could not be written: {words}\n");
    assert_eq!((&ran.error, ran.status), (&words, Some(2)));
}

#[test]
fn a_checkpoint_that_fails_at_the_end_is_told_after_the_answer() {
    let desk = Desk::new();
    let sub = desk.path("sub");
    fs::create_dir(&sub).expect("a folder");
    let ran = pauses_in_vain(&desk, |_| fs::remove_dir(&sub).expect("an empty folder"));
    not_kept(&ran, "sub/kept: No such file or directory");
}

#[test]
fn an_older_checkpoint_stays_whole() {
    let desk = Desk::with("counting.mz", COUNTING);
    fs::create_dir(desk.path("sub")).expect("a folder");
    let kept = "--checkpoint=sub/kept";
    desk.run(&["run", "counting.mz", "--budget=1000", kept]);
    let older = desk.read("sub/kept");
    assert!(!older.is_empty());
    // The name of the file that is written beside it is taken.
    let ran = pauses_in_vain(&desk, |child| {
        desk.put(&format!("sub/kept.{}.new", child.id()), "")
    });
    not_kept(&ran, "sub/kept: File exists");
    assert_eq!(desk.read("sub/kept"), older);
}

/// The same of a budget that is spent: then the answer is a refusal.
#[test]
fn a_spent_budget_that_is_not_kept_is_a_refusal() {
    let desk = Desk::with("endless.mz", ENDLESS);
    let mut command = desk.command(&["run", "endless.mz", "--slice=10", "--budget=1000000"]);
    let mut child = command
        .stdout(Stdio::piped())
        .stderr(Stdio::piped())
        .spawn()
        .expect("the command");
    let mut error = BufReader::new(child.stderr.take().expect("a pipe"));
    let mut told = String::new();
    error.read_line(&mut told).expect("a line");
    // The pipe is full long before the end, so the command waits for this.
    let taken = format!("endless.mz.checkpoint.{}.new", child.id());
    desk.put(&taken, "");
    error.read_to_string(&mut told).expect("the rest");
    let ran = ended(child, b"");
    assert!(ran.out().starts_with("refused by 17: "), "{}", ran.out());
    assert!(ran.out().contains("\n  What to do: "), "{}", ran.out());
    assert!(!ran.out().contains("paused"), "{}", ran.out());
    let last =
        "\nmuntyzhap: the checkpoint could not be written: endless.mz.checkpoint: File exists\n";
    assert!(told.ends_with(last), "{:?}", told.lines().last());
    assert_eq!(ran.status, Some(2));
    assert_eq!(desk.files(), ["endless.mz".to_string(), taken]);
}
