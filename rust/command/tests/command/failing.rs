//! Files and streams that fail.

use std::ffi::OsStr;
use std::fs::{self, File, OpenOptions, Permissions};
use std::io::Read;
use std::os::unix::ffi::OsStrExt;
use std::os::unix::fs::PermissionsExt;
use std::process::Stdio;

use crate::desk::{ended, Desk, COUNTING, DEPUTY};

#[test]
fn files_that_cannot_be_read_are_told_in_the_systems_words() {
    let desk = Desk::new();
    fs::create_dir(desk.path("folder")).expect("a folder");
    for command in ["run", "explain", "journal", "asm", "dis"] {
        desk.run(&[command, "deputy.mz"])
            .fails("deputy.mz: No such file or directory");
        desk.run(&[command, "folder"])
            .fails("folder: Is a directory");
    }
    desk.put("deputy.mz", DEPUTY);
    desk.run(&["run", "deputy.mz", "none.mz"])
        .fails("none.mz: No such file or directory");
    desk.run(&["run", "--resume=folder"])
        .fails("folder: Is a directory");
}

#[test]
fn a_files_name_may_be_any_bytes() {
    let desk = Desk::with("deputy.mz", DEPUTY);
    let name = OsStr::from_bytes(b"d\xFFputy");
    fs::copy(desk.path("deputy.mz"), desk.folder().join(name)).expect("a copy");
    let mut command = desk.command(&["run", "--rule=0"]);
    command
        .arg(name)
        .stdout(Stdio::piped())
        .stderr(Stdio::piped());
    let ran = ended(command.spawn().expect("the command"), b"");
    ran.says(0, "finished: 2 blocks");
    let block = OsStr::from_bytes(b"--block=lab=n\xFFne");
    let mut command = desk.command(&["run", "deputy.mz"]);
    command
        .arg(block)
        .stdout(Stdio::piped())
        .stderr(Stdio::piped());
    let ran = ended(command.spawn().expect("the command"), b"");
    ran.fails("n\u{FFFD}ne: No such file or directory");
}

#[test]
fn a_file_without_permission_is_told() {
    let desk = Desk::with("deputy.mz", DEPUTY);
    let path = desk.path("deputy.mz");
    fs::set_permissions(&path, Permissions::from_mode(0o0)).expect("a mode");
    if File::open(&path).is_ok() {
        return; // A user who may read everything.
    }
    desk.run(&["run", "deputy.mz"])
        .fails("deputy.mz: Permission denied");
}

#[test]
fn a_file_that_is_too_large_is_told_and_not_read_whole() {
    let desk = Desk::new();
    let file = File::create(desk.path("large")).expect("a file");
    file.set_len(1 << 40).expect("a length");
    for arguments in [
        ["run", "large"],
        ["asm", "large"],
        ["dis", "large"],
        ["run", "--resume=large"],
    ] {
        desk.run(&arguments)
            .fails("large: larger than 4194304 bytes, and no good input is");
    }
    desk.run(&["run", "/dev/zero"])
        .fails("/dev/zero: larger than 4194304 bytes, and no good input is");
}

#[test]
fn an_empty_file_is_a_text_with_an_error() {
    let desk = Desk::with("empty", "");
    let ran = desk.run(&["run", "empty"]);
    assert!(
        ran.error.starts_with("empty:1:1: ") && ran.error.ends_with("\nempty: 1 error\n"),
        "{ran:?}"
    );
    assert_eq!((ran.status, ran.out()), (Some(1), ""));
    let ran = desk.run(&["run", "empty", "--sheets"]);
    ran.says(1, "refused by 1: ");
}

/// A text in another encoding is no UTF-8, so it is taken for sheets; a note says
/// what may be meant.
#[test]
fn a_text_in_another_encoding_is_noted() {
    let desk = Desk::with("latin.mz", [&b"# \xE4\n"[..], DEPUTY.as_bytes()].concat());
    let ran = desk.run(&["run", "latin.mz"]);
    let note = "latin.mz is taken for sheets, as it is not text: byte E4 at offset 2 (line 1, column 3); if it is text, save it as UTF-8\n";
    assert_eq!((ran.error.as_str(), ran.status), (note, Some(1)));
    assert!(ran.out().starts_with("refused by 2: "), "{ran:?}");
    let ran = desk.run(&["run", "latin.mz", "--text-input"]);
    ran.fails("latin.mz: not text: byte E4 at offset 2 (line 1, column 3); if it is text, save it as UTF-8");
}

#[test]
fn random_bytes_get_an_answer() {
    let desk = Desk::new();
    let mut state = 7u64;
    for length in (0..60).step_by(3) {
        let bytes: Vec<u8> = std::iter::repeat_with(|| {
            state = state
                .wrapping_mul(6364136223846793005)
                .wrapping_add(1442695040888963407);
            (state >> 56) as u8
        })
        .take(length)
        .collect();
        desk.put("random", &bytes);
        for command in ["run", "dis", "explain", "journal"] {
            let ran = desk.run(&[command, "random", "--sheets"]);
            assert_eq!(ran.status, Some(1), "{bytes:?} {ran:?}");
            assert!(ran.out().contains("refused by "), "{bytes:?} {ran:?}");
        }
        let ran = desk.run(&["run", "--resume=random"]);
        assert_eq!((ran.status, ran.out()), (Some(2), ""), "{bytes:?}");
    }
}

#[test]
fn a_full_disk_under_standard_output_is_told() {
    let desk = Desk::with("deputy.mz", DEPUTY);
    desk.put("deputy.bin", desk.sheets(DEPUTY));
    let cases = [
        &["run", "deputy.mz"][..],
        &["run", "deputy.mz", "--plain"],
        &["journal", "deputy.mz", "--rule=0"],
        &["asm", "deputy.mz"],
        &["dis", "deputy.bin"],
        &["help"],
    ];
    for arguments in cases {
        let full = OpenOptions::new()
            .write(true)
            .open("/dev/full")
            .expect("a device");
        let child = desk
            .command(arguments)
            .stdout(full)
            .stderr(Stdio::piped())
            .spawn();
        let ran = ended(child.expect("the command"), b"");
        ran.fails("standard output: No space left on device");
    }
}

#[test]
fn a_full_disk_under_standard_error_ends_with_2() {
    let desk = Desk::with("deputy.mz", DEPUTY);
    let full = OpenOptions::new()
        .write(true)
        .open("/dev/full")
        .expect("a device");
    let mut command = desk.command(&["run", "deputy.mz", "--trace", "--rule=0"]);
    let child = command.stdout(Stdio::piped()).stderr(full).spawn();
    let ran = ended(child.expect("the command"), b"");
    assert!(ran.out().starts_with("finished: 2 blocks, "), "{ran:?}");
    assert_eq!(ran.status, Some(2));
}

/// Nobody reads any more: the command ends quietly, whatever it writes.
#[test]
fn a_closed_pipe_ends_the_command_quietly() {
    let desk = Desk::with("counting.mz", COUNTING);
    let mut journal = desk.command(&["journal", "counting.mz"]);
    let mut child = journal
        .stdout(Stdio::piped())
        .stderr(Stdio::piped())
        .spawn()
        .expect("the command");
    drop(child.stdout.take());
    ended(child, b"").is(2, "", "");
}

/// Lines of progress and notes are no reason to lose what a run came to.
#[test]
fn a_run_goes_on_where_standard_error_fails() {
    let desk = Desk::with("counting.mz", COUNTING);
    let whole = desk.run(&["run", "counting.mz"]);
    for options in [&["--trace"][..], &["--slice=1"], &["--slice=1", "--trace"]] {
        let mut run = desk.command(&[&["run", "counting.mz"], options].concat());
        let mut child = run
            .stdout(Stdio::piped())
            .stderr(Stdio::piped())
            .spawn()
            .expect("the command");
        let mut first = [0; 8];
        let mut error = child.stderr.take().expect("a pipe");
        error.read_exact(&mut first).expect("a line's beginning");
        drop(error);
        ended(child, b"").is(2, whole.out(), "");
    }
    let on_full = |arguments: &[&str]| {
        let mut command = desk.command(arguments);
        let full = OpenOptions::new().write(true).open("/dev/full");
        let command = command.stderr(full.expect("a device"));
        ended(
            command.stdout(Stdio::piped()).spawn().expect("the command"),
            b"",
        )
    };
    on_full(&["run", "counting.mz", "--slice=700"]).is(2, whole.out(), "");
    let ran = on_full(&["run", "counting.mz", "--slice=300", "--budget=1000"]);
    assert!(ran.out().starts_with("paused by 17: "), "{ran:?}");
    assert_eq!(ran.status, Some(2));
    let resume = ["run", "counting.mz", "--resume=counting.mz.checkpoint"];
    let noted = [&resume[..], &["--budget=3000"]].concat();
    on_full(&noted).is(2, whole.out(), "");
    assert_eq!(
        desk.run(&noted).error,
        "carried on with budget 3000; it was 1000 until the pause\n"
    );
}
