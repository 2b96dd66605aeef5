//! `muntyzhap explain`, and what is told of sheets that are refused.

use crate::desk::{Desk, COUNTING, DEPUTY};

#[test]
fn a_refused_run_is_explained_as_under_run() {
    let desk = Desk::with("deputy.mz", DEPUTY);
    for rule in ["--rule=1", "--rule=2", "--rule=3", "--rule=255", "--rule=7"] {
        let explained = desk.run(&["explain", "deputy.mz", rule]);
        assert_eq!(explained, desk.run(&["run", "deputy.mz", rule]));
        explained.says(1, "refused by ");
    }
}

#[test]
fn a_run_that_finishes_is_told_in_a_line() {
    let desk = Desk::with("deputy.mz", DEPUTY);
    let line = "finished: 2 blocks, 2 steps, 2 writes\n";
    desk.run(&["explain", "deputy.mz", "--rule=0"])
        .is(0, line, "");
    let traced = desk.run(&["explain", "deputy.mz", "--rule=0", "--trace", "--entries=2"]);
    assert_eq!((traced.out(), traced.error.lines().count()), (line, 2));
}

/// A store sheet of the example with one byte changed, and its refusal.
#[test]
fn each_refusal_of_a_store_sheet_has_its_numbers() {
    let desk = Desk::new();
    let cases = [
        (0, 0x21, 2, 0, "n is 33, and a store has 1 to 32 principals"),
        (
            3,
            0x00,
            3,
            3,
            "principal p0 does not stand at or below itself",
        ),
        (
            19,
            0x09,
            4,
            19,
            "slot s0 is owned by principal 9, and there are 4 principals",
        ),
        (22, 0x07, 5, 22, "kind 07"),
        (23, 0x05, 5, 22, "view of slot 5, and there are 3 slots"),
    ];
    for (at, byte, number, told_at, reason) in cases {
        let mut sheets = desk.sheets(DEPUTY);
        sheets[at] = byte;
        desk.put("deputy.bin", &sheets);
        let ran = desk.run(&["explain", "deputy.bin"]);
        ran.says(1, &format!("refused by {number}: "));
        ran.says(
            1,
            &format!("\n  at deputy.bin: byte {told_at} (byte {told_at} of the store sheet)\n"),
        );
        ran.says(1, reason);
        ran.says(1, "\n  `muntyzhap dis deputy.bin` lists the sheets\n");
    }
    desk.put("deputy.bin", &desk.sheets(DEPUTY)[..40]);
    let ran = desk.run(&["explain", "deputy.bin"]);
    ran.says(1, "refused by 1: ");
    ran.says(1, "40 bytes");
}

/// A byte of the example's sheets, what it becomes, and the refusal, place and reason.
const IN_PROGRAMME: [(usize, u8, u32, &str, &str); 7] = [
    (
        49,
        0x41,
        7,
        "byte 49 (byte 0 of the programme sheet)",
        "k is 65, and a programme has at most 64 blocks",
    ),
    (
        50,
        0x2A,
        6,
        "byte 102 (byte 53 of the programme sheet)",
        "ask for 53",
    ),
    (
        52,
        0x08,
        8,
        "byte 52 (byte 3 of the programme sheet)",
        "block 0 has principal 8 as its region",
    ),
    (53, 0x83, 0, "", ""),
    (
        54,
        0x16,
        6,
        "byte 56 (byte 7 of the programme sheet)",
        "add up to 44, and the code has 43 bytes",
    ),
    (
        81,
        0x27,
        9,
        "byte 81, in the programme sheet: block 1 (region p3), offset 0",
        "27 is no command's first byte",
    ),
    (
        61,
        0x27,
        9,
        "byte 61, in the programme sheet: block 0 (region p1), offset 1",
        "27",
    ),
];

#[test]
fn each_refusal_of_a_programme_sheet_has_its_numbers() {
    let desk = Desk::new();
    for (at, byte, number, place, reason) in IN_PROGRAMME {
        let mut sheets = desk.sheets(DEPUTY);
        sheets[at] = byte;
        desk.put("deputy.bin", &sheets);
        let ran = desk.run(&["explain", "deputy.bin"]);
        if number == 0 {
            // Endorsed down to the bottom, everything passes.
            ran.says(0, "finished: 2 blocks, 2 steps, 2 writes\n");
            continue;
        }
        ran.says(1, &format!("refused by {number}: "));
        ran.says(1, &format!("\n  at deputy.bin: {place}\n"));
        ran.says(1, reason);
    }
}

#[test]
fn commands_that_nest_too_deep_are_told() {
    let desk = Desk::new();
    let guard = b"\x10\x01\x01\0\0\0\0\0\0\0";
    let deep: Vec<u8> = std::iter::repeat_n([b"\x24", &guard[..]].concat(), 33)
        .flatten()
        .collect();
    desk.put("deep.bin", [&deep[..], b"\x20"].concat());
    desk.put("store.mz", "principals lab");
    let ran = desk.run(&["explain", "store.mz", "--block=lab=deep.bin"]);
    assert!(ran.out().starts_with("refused by 10: "), "{ran:?}");
    assert!(
        ran.out().contains(
            "\n  at deep.bin: byte 352, in the programme sheet: block 0 (region lab), offset 352\n"
        ),
        "{ran:?}"
    );
    assert!(
        ran.out()
            .contains("the while at deep.bin: byte 341, offset 341\n"),
        "{ran:?}"
    );
}

#[test]
fn wrong_kinds_and_missing_authority_are_told() {
    let desk = Desk::new();
    let text =
        |command: &str| format!("principals low < lab slot a : lab = 5 block low {{ {command} }}");
    let cases = [
        ("if a { skip }", 13, "if a"),
        ("[a] := 5", 13, "[a] := 5"),
        ("a := true + 1", 13, "a := true + 1"),
        ("a := 6", 14, "a := 6"),
    ];
    for (command, number, line) in cases {
        desk.put("x.mz", text(command));
        let ran = desk.run(&["explain", "x.mz"]);
        ran.says(1, &format!("refused by {number}: "));
        ran.says(
            1,
            &format!("\n  at x.mz:1:51, block 0 (region low), offset 0, after 0 steps: {line}\n"),
        );
    }
}

#[test]
fn a_full_journal_is_told() {
    let desk = Desk::with("counting.mz", COUNTING);
    let ran = desk.run(&["explain", "counting.mz", "--entries=0"]);
    ran.says(1, "refused by 18: ");
    ran.says(1, "after 1 step");
}

#[test]
fn the_printing_programs_input_is_told() {
    let desk = Desk::new();
    let sheets = desk.sheets(DEPUTY);
    let hint = |tail: &str| {
        format!(
            "\n  it looks like the printing program's input, where 5 bytes of rule and budget come first \
             (here 3 and 1000): `{tail}` leaves the sheets\n"
        )
    };
    let input = [b"\x03\xE8\x03\0\0", &sheets[..]].concat();
    desk.put("input.bin", &input);
    desk.run(&["explain", "input.bin"])
        .says(1, &hint("tail -c +6 input.bin"));
    desk.run_with(&["explain", "-"], &input)
        .says(1, &hint("tail -c +6"));
    desk.put("other.bin", &input[..30]);
    let other = desk.run(&["explain", "other.bin"]);
    assert!(!other.out().contains("printing"), "{other:?}");
}
