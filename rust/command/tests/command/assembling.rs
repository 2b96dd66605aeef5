//! `muntyzhap asm`.

use std::os::unix::fs::PermissionsExt;
use std::process::{Command, Stdio};
use std::{fs, os};

use crate::desk::{ended, Desk, DEPUTY};

/// The store sheet of the example, and its programme sheet.
const STORE: usize = 49;
const PROGRAMME: usize = 54;

#[test]
fn both_sheets_are_written() {
    let desk = Desk::with("deputy.mz", DEPUTY);
    desk.run(&["asm", "deputy.mz", "-o", "deputy.bin"])
        .is(0, "", "");
    let sheets = desk.read("deputy.bin");
    assert_eq!(sheets.len(), STORE + PROGRAMME);
    assert_eq!(sheets[..3], [4, 3, 0]);
    assert_eq!(sheets[STORE..][..3], [2, 43, 0]);
    assert_eq!(desk.run(&["asm", "deputy.mz"]).bytes, sheets);
    assert_eq!(desk.run(&["asm", "deputy.mz", "-o", "-"]).bytes, sheets);
    assert_eq!(desk.files(), ["deputy.bin", "deputy.mz"]);
}

#[test]
fn one_sheet_is_written() {
    let desk = Desk::with("deputy.mz", DEPUTY);
    let sheets = desk.sheets(DEPUTY);
    let (store, programme) = sheets.split_at(STORE);
    let only = |part| desk.run(&["asm", "deputy.mz", "--only", part]).bytes;
    assert_eq!(
        (only("store"), only("programme")),
        (store.to_vec(), programme.to_vec())
    );
    desk.put("store.mz", "principals lab\n");
    desk.run(&["asm", "store.mz", "--only=programme"])
        .fails("store.mz has no programme");
    let other = desk.run(&["asm", "store.mz", "--only=both"]);
    other.fails(
        "--only: both is not store, programme or code\n`muntyzhap help asm` says how to use it",
    );
}

#[test]
fn all_errors_are_told_with_their_places() {
    let desk = Desk::with(
        "bad.mz",
        "principals a, b\nslot x : a = 5\nblock a { x = 6 }\n",
    );
    let expected = "\
bad.mz:1:12: a and b have no common lower principal, so they have no meet: add one below both, as in `principals nobody < a, b`
bad.mz:3:13: an assignment is written with `:=`, not `=`
bad.mz: 2 errors
";
    for command in ["asm", "run", "explain", "journal"] {
        desk.run(&[command, "bad.mz"]).is(1, "", expected);
    }
    desk.run(&["asm", "bad.mz", "-o", "bad.bin"])
        .is(1, "", expected);
    assert_eq!(desk.files(), ["bad.mz"]);
}

#[test]
fn what_is_no_text_is_told() {
    let desk = Desk::with("sheets.bin", [4, 0, 0]);
    desk.run(&["asm", "sheets.bin"])
        .fails("sheets.bin: not text: byte 04 at offset 0; `muntyzhap dis` lists sheets");
    desk.put("empty", "");
    let ran = desk.run(&["asm", "empty"]);
    assert!(ran.error.starts_with("empty:1:1: "), "{ran:?}");
    assert_eq!((ran.status, ran.out()), (Some(1), ""));
}

#[test]
fn a_file_is_replaced_whole_and_keeps_its_permissions() {
    let desk = Desk::with("deputy.mz", DEPUTY);
    desk.put("old", [7; 1000]);
    fs::set_permissions(desk.path("old"), fs::Permissions::from_mode(0o640)).expect("a mode");
    os::unix::fs::symlink("old", desk.path("link")).expect("a link");
    desk.run(&["asm", "deputy.mz", "-o", "link"]).is(0, "", "");
    assert_eq!(desk.read("old"), desk.sheets(DEPUTY));
    let found = fs::symlink_metadata(desk.path("old")).expect("the file");
    assert_eq!(found.permissions().mode() & 0o777, 0o640);
    let link = fs::symlink_metadata(desk.path("link")).expect("the link");
    assert!(link.is_symlink());
    assert_eq!(desk.files(), ["deputy.mz", "link", "old"]);
}

#[test]
fn what_cannot_be_written_is_told_and_nothing_is_left() {
    let desk = Desk::with("deputy.mz", DEPUTY);
    fs::create_dir(desk.path("folder")).expect("a folder");
    let cases = [
        ("none/out", "none/out: No such file or directory"),
        ("folder", "folder: Is a directory"),
        ("/dev/full", "/dev/full: No space left on device"),
    ];
    for (out, words) in cases {
        desk.run(&["asm", "deputy.mz", "-o", out]).fails(words);
    }
    desk.run(&["asm", "deputy.mz", "-o", "/dev/null"])
        .is(0, "", "");
    let over = desk.run(&["asm", "deputy.mz", "-o", "./deputy.mz"]);
    over.fails(
        "-o: the sheets would take the place of the text\n`muntyzhap help asm` says how to use it",
    );
    assert_eq!(desk.files(), ["deputy.mz", "folder"]);
    assert_eq!(desk.read("deputy.mz"), DEPUTY.as_bytes());
}

/// A limit of the system stands for a full disk: the first byte does not fit.
#[test]
fn a_file_that_cannot_be_written_whole_keeps_its_old_bytes() {
    let desk = Desk::with("deputy.mz", DEPUTY);
    desk.put("old", "old bytes");
    let program = env!("CARGO_BIN_EXE_muntyzhap");
    let commands = [
        ("asm deputy.mz -o", "old bytes", ["", ""]),
        (
            "run deputy.mz --budget=1 --checkpoint",
            "muntyzhap checkpoint 0",
            [
                "no checkpoint can be written to ",
                "; give another place with --checkpoint",
            ],
        ),
    ];
    for (command, bytes, [before, after]) in commands {
        desk.put("old", bytes);
        for out in ["old", "new"] {
            let line = format!("trap '' XFSZ; ulimit -f 0; exec {program} {command} {out}");
            let mut shell = Command::new("sh");
            let shell = shell.args(["-c", &line]).current_dir(desk.folder());
            let child = shell.stdout(Stdio::piped()).stderr(Stdio::piped()).spawn();
            ended(child.expect("a shell"), b"")
                .fails(&format!("{before}{out}: File too large{after}"));
            assert_eq!(desk.read("old"), bytes.as_bytes());
            assert_eq!(desk.files(), ["deputy.mz", "old"]);
        }
    }
}

/// A customer's text, with the store's names or with numbers, comes to the same code.
#[test]
fn the_code_of_one_block_is_written() {
    let desk = Desk::with("deputy.mz", DEPUTY);
    let names = "principals nobody < digA, digB < lab slot place : digA slot result : digA slot curve : lab";
    desk.put("names.mz", format!("{names} block digA {{ place := 7 }}"));
    desk.put("numbers.mz", "block p1 { s0 := 7 }");
    let code = b"\x21\x10\x03\0\0\0\0\0\0\0\0\x10\0\x07\0\0\0\0\0\0\0";
    for text in ["names.mz", "numbers.mz"] {
        desk.run(&["asm", text, "--only=code", "-o", "code.bin"])
            .is(0, "", "");
        assert_eq!(desk.read("code.bin"), code);
    }
    desk.put("none.mz", "no blocks");
    desk.put("store.mz", "principals lab");
    let needs = "--only code needs a text with exactly one";
    let cases = [
        ("deputy.mz", format!("deputy.mz has 2 blocks: {needs}")),
        ("none.mz", format!("none.mz has 0 blocks: {needs}")),
        ("store.mz", "store.mz has no programme".to_string()),
    ];
    for (text, words) in cases {
        desk.run(&["asm", text, "--only=code"]).fails(&words);
    }
}

#[test]
fn errors_that_are_not_told_are_counted() {
    let slots = (0..30).map(|slot| format!("slot a{slot} = 5\n"));
    let text = slots.fold("principals lab\n".to_string(), |text, slot| text + &slot);
    let ran = Desk::with("e30.mz", text).run(&["asm", "e30.mz"]);
    let lines: Vec<&str> = ran.error.lines().collect();
    assert_eq!((lines.len(), ran.status), (22, Some(1)));
    assert!(
        lines[20].ends_with(": and 10 more errors from here on"),
        "{ran:?}"
    );
    assert_eq!(lines[21], "e30.mz: 30 errors");
}

#[test]
fn a_control_byte_in_a_text_is_told_with_its_place() {
    let desk = Desk::new();
    for (byte, hex) in [(0, "00"), (12, "0C"), (27, "1B")] {
        let mut text = DEPUTY.as_bytes().to_vec();
        text[41] = byte;
        desk.put("bad.mz", text);
        let wrong = format!(
            "not text: byte {hex} at offset 41 (line 2, column 5); if it is text, take that byte out"
        );
        let note = format!("bad.mz is taken for sheets, as it is {wrong}\n");
        for command in ["run", "dis"] {
            let ran = desk.run(&[command, "bad.mz"]);
            assert_eq!((ran.error.as_str(), ran.status), (note.as_str(), Some(1)));
            assert!(ran.out().contains("refused by 2"), "{ran:?}");
        }
        desk.run(&["asm", "bad.mz"])
            .fails(&format!("bad.mz: {wrong}"));
    }
}

/// Sheets of many a skip, which is a space, look like text; good ones get no note.
#[test]
fn good_sheets_are_not_taken_for_text() {
    let skips = format!(
        "principals lab block lab {{ skip {} }}",
        "; skip".repeat(120)
    );
    let desk = Desk::new();
    desk.put("skips.bin", desk.sheets(&skips));
    desk.run(&["explain", "skips.bin"])
        .says(0, "finished: 1 block");
}
