//! `--block NAME=FILE`: a customer's code at the laboratory's region.

use crate::desk::{Desk, DEPUTY};

/// The code of `place := 7`, and of `place := write place`.
const SEVEN: [u8; 21] = *b"\x21\x10\x03\0\0\0\0\0\0\0\0\x10\0\x07\0\0\0\0\0\0\0";
const ITSELF: [u8; 21] = *b"\x21\x10\x03\0\0\0\0\0\0\0\0\x10\x03\0\0\0\0\0\0\0\0";

fn desk() -> Desk {
    let desk = Desk::with("deputy.mz", DEPUTY);
    desk.put("seven.bin", SEVEN);
    desk.put("itself.bin", ITSELF);
    desk
}

#[test]
fn code_goes_into_the_block_of_that_name() {
    let desk = desk();
    desk.put(
        "named.mz",
        DEPUTY.replace("block digA", "block intake : digA"),
    );
    let ran = desk.run(&[
        "run",
        "named.mz",
        "--rule=0",
        "--block",
        "intake=itself.bin",
    ]);
    let expected = "\
finished: 2 blocks, 2 steps, 2 writes
slot    owner  value  writes
place   digA   42          2
result  digA   0           0
curve   lab    50000       0
";
    let note =
        "itself.bin: 21 bytes of code for block 0 (by its name), region digA, not endorsed\n";
    ran.is(0, expected, note);
}

#[test]
fn code_goes_into_the_one_block_of_that_region() {
    let ran = desk().run(&["run", "deputy.mz", "--rule=0", "--block=digA=itself.bin"]);
    assert!(
        ran.out().contains("place   digA   42          2\n"),
        "{ran:?}"
    );
    let note =
        "itself.bin: 21 bytes of code for block 0 (the one block of its region), region digA, not endorsed\n";
    assert_eq!((ran.error.as_str(), ran.status), (note, Some(0)));
}

#[test]
fn code_goes_into_a_new_last_block_where_the_region_has_none() {
    let ran = desk().run(&["run", "deputy.mz", "--rule=0", "--block=digB=seven.bin"]);
    let note =
        "seven.bin: 21 bytes of code for block 2 (a new last block), region digB, not endorsed\n";
    assert_eq!((ran.error.as_str(), ran.status), (note, Some(1)));
    let place =
        "\n  at seven.bin: byte 0, block 2 (region digB), offset 0, after 2 steps: place := 7\n";
    assert!(
        ran.out().contains("refused by 14: ") && ran.out().contains(place),
        "{ran:?}"
    );
}

#[test]
fn an_endorsed_block_stays_endorsed() {
    let desk = desk();
    desk.put(
        "endorsed.mz",
        DEPUTY.replace("block lab ", "block lab endorsed down to digA "),
    );
    let ran = desk.run(&["run", "endorsed.mz", "--block=lab=seven.bin"]);
    let note =
        "seven.bin: 21 bytes of code for block 1 (the one block of its region), region lab, \
                endorsed down to digA\n";
    assert_eq!((ran.error.as_str(), ran.status), (note, Some(0)));
}

#[test]
fn several_files_go_where_the_programme_as_it_was_says() {
    let desk = desk();
    let both = ["--block=digB=itself.bin", "--block=nobody=seven.bin"];
    let ran = desk.run(&[&["run", "deputy.mz", "--rule=0"], &both[..]].concat());
    let blocks: Vec<&str> = ran.error.lines().collect();
    assert!(
        blocks[0].contains("itself.bin: 21 bytes of code for block 2 (a new"),
        "{ran:?}"
    );
    assert!(
        blocks[1].contains("seven.bin: 21 bytes of code for block 3 (a new"),
        "{ran:?}"
    );
    for name in ["digA", "digB"] {
        let same = ["itself", "seven"].map(|file| format!("--block={name}={file}.bin"));
        let ran = desk.run(&["run", "deputy.mz", &same[0], &same[1]]);
        ran.fails(&format!("--block {name}: it is given twice"));
    }
    desk.put(
        "named.mz",
        DEPUTY.replace("block digA", "block intake : digA"),
    );
    let same = ["--block=intake=itself.bin", "--block=digA=seven.bin"];
    let ran = desk.run(&[&["run", "named.mz"], &same[..]].concat());
    ran.fails("--block digA: that is the block intake, which is given too");
}

#[test]
fn a_name_that_is_unknown_or_means_several_is_told() {
    let desk = desk();
    desk.put("two.mz", format!("{DEPUTY}block second : digA {{ skip }}"));
    let ran = desk.run(&["run", "two.mz", "--block=digA=seven.bin"]);
    ran.fails(
        "--block digA: several blocks have that region: block 0, block 2 (second); give the block a name in \
         the text, as in `block intake : digA { .. }`, and use that",
    );
    let ran = desk.run(&["run", "two.mz", "--block=digC=seven.bin"]);
    ran.fails(
        "--block digC: no block and no principal has that name; did you mean `digA` or `digB`? (there are second, nobody, \
         digA, digB, lab)",
    );
    for wrong in ["digA", "digA=", "=seven.bin"] {
        let ran = desk.run(&["run", "two.mz", "--block", wrong]);
        ran.fails("--block needs NAME=FILE after it\n`muntyzhap help run` says how to use it");
    }
    let ran = desk.run(&["run", "two.mz", "--block=lab=none.bin"]);
    ran.fails("none.bin: No such file or directory");
}

/// The region comes from the name alone: bytes that look like a programme sheet of
/// the laboratory's are code that is not good.
#[test]
fn code_that_is_not_good_is_refused_at_its_byte() {
    let desk = desk();
    desk.put("cut.bin", &SEVEN[..13]);
    let ran = desk.run(&["run", "deputy.mz", "--block=digA=cut.bin"]);
    let lines: Vec<&str> = ran.out().lines().collect();
    assert!(
        lines[0].starts_with("refused by 9: the code is ill-formed"),
        "{lines:?}"
    );
    let place = "  at cut.bin: byte 13, in the programme sheet: block 0 (region digA), offset 13";
    assert_eq!(lines[1], place);
    let command =
        "  the last command that starts before it is the assignment at cut.bin: byte 0, offset 0";
    assert_eq!(lines[lines.len() - 2], command);
    let listed = "  `muntyzhap dis deputy.mz --block digA=cut.bin` lists the sheets";
    assert_eq!(lines.last(), Some(&listed));
    assert_eq!(ran.status, Some(1));
    desk.put("sheet.bin", b"\x01\x01\0\x03\x01\0\0\x20");
    let ran = desk.run(&["run", "deputy.mz", "--block=digA=sheet.bin"]);
    assert!(
        ran.out().starts_with("refused by 9: ") && ran.out().contains("sheet.bin: byte 0,"),
        "{ran:?}"
    );
}

#[test]
fn a_store_alone_takes_blocks() {
    let desk = desk();
    let store: String = DEPUTY
        .lines()
        .take(4)
        .map(|line| format!("{line}\n"))
        .collect();
    desk.put("store.mz", &store);
    desk.put("store.bin", desk.sheets(&store));
    for (file, region) in [("store.mz", "digA"), ("store.bin", "p1")] {
        let ran = desk.run(&["run", file, &format!("--block={region}=seven.bin")]);
        let note = format!("seven.bin: 21 bytes of code for block 0 (a new last block), region {region}, not endorsed\n");
        assert_eq!((ran.error, ran.status), (note, Some(0)));
    }
}

#[test]
fn other_blocks_of_sheets_stay_as_they_are() {
    let desk = desk();
    let mut sheets = desk.sheets(DEPUTY);
    // A floor that means nothing.
    sheets[49 + 3 + 2 + 4] = 0xEE;
    desk.put("deputy.bin", &sheets);
    let ran = desk.run(&["run", "deputy.bin", "--block=p1=itself.bin"]);
    assert!(
        ran.out().contains("place") || ran.out().contains("s0    p1     42          2\n"),
        "{ran:?}"
    );
    // The same code in its own place is the same run.
    desk.put("own.bin", &sheets[49 + 3 + 8..][..21]);
    let same = desk.run(&["run", "deputy.bin", "--block=p1=own.bin"]);
    assert_eq!(same.out(), desk.run(&["run", "deputy.bin"]).out());
}

#[test]
fn nothing_goes_into_a_damaged_sheet_or_past_the_limits() {
    let desk = desk();
    let sheets = desk.sheets(DEPUTY);
    desk.put("cut.bin", &sheets[..80]);
    let ran = desk.run(&["run", "cut.bin", "--block=p1=seven.bin"]);
    let note = "--block: nothing is put in, since the programme sheet is damaged\n";
    assert_eq!((ran.error.as_str(), ran.status), (note, Some(1)));
    assert!(ran.out().starts_with("refused by 6: "), "{ran:?}");
    desk.put("long.bin", [0x20; 16_384]);
    let ran = desk.run(&["run", "deputy.mz", "--block=digA=long.bin"]);
    ran.fails(
        "long.bin: too long for block 0, region digA: it has 16384 bytes of code and the other blocks 22, \
         and a programme has at most 16384 bytes of code in all",
    );
}

/// What is no code, and what is said of it after the note of where it went.
#[test]
fn a_text_or_a_sheet_in_place_of_code_is_told() {
    let desk = desk();
    desk.put("customer.mz", "block p1 { s0 := 7 }");
    desk.put("two.bin", desk.sheets(DEPUTY));
    desk.put("one.bin", desk.sheets("block p1 { s0 := 7 }"));
    let cases = [
        (
            "customer.mz",
            "is a text: `muntyzhap asm customer.mz --only code -o customer.bin` makes its code",
        ),
        (
            "two.bin",
            "is a store sheet and a programme sheet of 2 blocks: give the code of one block alone",
        ),
        (
            "one.bin",
            "is a programme sheet: `tail -c +8 one.bin` leaves its code",
        ),
    ];
    for (file, words) in cases {
        let ran = desk.run(&["run", "deputy.mz", &format!("--block=digA={file}")]);
        assert!(ran.out().starts_with("refused by 9: "), "{ran:?}");
        let last = ran.error.lines().last();
        assert_eq!(last, Some(format!("{file} {words}").as_str()));
    }
    let whole = desk.read("one.bin");
    assert_eq!(whole[7..], SEVEN);
    // A skip is a space: that is code, and no text.
    desk.put("skip.bin", " ");
    let ran = desk.run(&["run", "deputy.mz", "--block=digA=skip.bin"]);
    assert_eq!((ran.error.lines().count(), ran.status), (1, Some(0)));
}
