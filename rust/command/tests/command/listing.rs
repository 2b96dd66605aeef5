//! `muntyzhap dis`.

use crate::desk::{Desk, COUNTING, DEPUTY};

/// The bytes column of a listing, as bytes.
fn bytes(listing: &str) -> Vec<u8> {
    let head = listing.lines().next().unwrap_or_default();
    let (first, end) = (head.find("bytes"), head.find("text"));
    let (first, end) = (first.expect("a column"), end.expect("a column"));
    let columns = listing.lines().skip(1).map(|line| {
        let line: Vec<char> = line.chars().collect();
        let column = line.get(first..end.min(line.len())).unwrap_or_default();
        column.iter().collect::<String>()
    });
    let columns: Vec<String> = columns.collect();
    let words = columns.iter().flat_map(|column| column.split_whitespace());
    let bytes = words.map(|word| u8::from_str_radix(word, 16).expect("a byte"));
    bytes.collect()
}

#[test]
fn a_listing_has_every_byte_and_the_text() {
    let desk = Desk::new();
    let sheets = desk.sheets(DEPUTY);
    desk.put("deputy.bin", &sheets);
    let ran = desk.run(&["dis", "deputy.bin"]);
    ran.says(0, "s0 := write s2\n");
    ran.says(0, "[s0] := 42\n");
    assert_eq!(bytes(ran.out()), sheets);
    assert_eq!(desk.run_with(&["dis", "-"], &sheets), ran);
}

#[test]
fn a_damaged_sheet_is_listed_with_its_refusal() {
    let desk = Desk::new();
    let mut sheets = desk.sheets(DEPUTY);
    let last = sheets.len() - 10;
    sheets[last] = 0x27;
    desk.put("deputy.bin", &sheets);
    let ran = desk.run(&["dis", "deputy.bin"]);
    ran.says(1, "<-- refused by 9: ");
    assert_eq!(bytes(ran.out()), sheets);
    let text = desk.run(&["dis", "deputy.bin", "--text"]);
    assert_eq!((text.status, text.out()), (Some(1), ""));
    assert!(
        text.error.starts_with("deputy.bin: refused by 9: "),
        "{text:?}"
    );
    assert!(
        text.error.contains("byte 44 of the programme sheet"),
        "{text:?}"
    );
}

#[test]
fn the_text_of_sheets_comes_to_the_same_sheets() {
    let desk = Desk::new();
    for text in [
        DEPUTY,
        COUNTING,
        "principals lab\n",
        "principals lab no blocks",
    ] {
        let sheets = desk.sheets(text);
        desk.put("sheets.bin", &sheets);
        let text = desk.run(&["dis", "--text", "sheets.bin"]);
        text.says(0, "principals ");
        assert_eq!(desk.sheets(text.out()), sheets);
    }
}

#[test]
fn a_programme_alone_is_listed() {
    let desk = Desk::with("deputy.mz", DEPUTY);
    desk.run(&[
        "asm",
        "deputy.mz",
        "--only=programme",
        "-o",
        "programme.bin",
    ])
    .is(0, "", "");
    desk.run(&["asm", "deputy.mz", "--only=store", "-o", "store.bin"])
        .is(0, "", "");
    let alone = ["dis", "programme.bin", "--programme-only"];
    desk.run(&alone).says(0, "[s0] := 42\n");
    let sized = [&alone[..], &["--principals=4", "--slots=3"]].concat();
    desk.run(&sized).says(0, "[s0] := 42\n");
    let few = [&alone[..], &["--principals=4", "--slots=2"]].concat();
    desk.run(&few).says(1, "<-- refused by 9: ");
    for (store, command) in [
        ("deputy.mz", "[place] := 42\n"),
        ("store.bin", "[s0] := 42\n"),
    ] {
        desk.run(&["dis", "programme.bin", "--store", store])
            .says(0, command);
    }
}

#[test]
fn the_text_of_a_programme_alone_is_assembled() {
    let desk = Desk::with("deputy.mz", DEPUTY);
    desk.run(&[
        "asm",
        "deputy.mz",
        "--only=programme",
        "-o",
        "programme.bin",
    ])
    .is(0, "", "");
    let programme = desk.read("programme.bin");
    let text = desk.run(&["dis", "programme.bin", "--programme-only", "--text"]);
    text.says(0, "block p1 {\n  s0 := write s2\n}\n");
    assert_eq!(desk.sheets(text.out()), programme);
    let named = desk.run(&["dis", "programme.bin", "--store=deputy.mz", "--text"]);
    named.says(0, "block digA {\n  place := write curve\n}\n");
    desk.put("named.mz", named.out());
    let again = desk.run(&["asm", "named.mz", "--only=programme"]);
    assert_eq!(again.bytes, programme);
}

#[test]
fn a_text_is_listed_with_its_names() {
    let desk = Desk::with("deputy.mz", DEPUTY);
    let ran = desk.run(&["dis", "deputy.mz"]);
    ran.says(0, "  [place] := 42\n");
    assert_eq!(bytes(ran.out()), desk.sheets(DEPUTY));
    let text = desk.run(&["dis", "deputy.mz", "--text"]);
    text.says(0, "block lab {\n  [place] := 42\n}\n");
    assert_eq!(desk.sheets(text.out()), desk.sheets(DEPUTY));
    let alone = desk.run(&["dis", "deputy.mz", "--programme-only"]);
    alone.says(0, "  [place] := 42\n");
    assert_eq!(bytes(alone.out()), desk.sheets(DEPUTY)[49..]);
    let ran = desk.run(&["dis", "deputy.mz", "--sheets"]);
    ran.says(1, "<-- refused by 2: ");
    assert_eq!(bytes(ran.out()), DEPUTY.as_bytes());
    desk.put("empty", "");
    let ran = desk.run(&["dis", "empty"]);
    assert!(ran.error.starts_with("empty:1:1: "), "{ran:?}");
    desk.run(&["dis", "empty", "--sheets"])
        .says(1, "refused by 1");
}

#[test]
fn the_text_of_a_programme_alone_keeps_its_names() {
    let names = "principals digA < lab\nslot place : digA\nslot curve : lab\n";
    let programme = format!("{names}\nblock digA {{\n  place := 7\n}}\n");
    let desk = Desk::with("programme.mz", &programme);
    desk.run(&["dis", "programme.mz", "--text"])
        .is(0, &programme, "");
    desk.run(&["dis", "programme.mz"]).says(0, "  place := 7\n");
    desk.put(
        "store.mz",
        "principals digA < lab slot place : digA = 1 slot curve : lab = 2",
    );
    desk.run(&["dis", "programme.mz", "--store=store.mz", "--text"])
        .says(
            0,
            "slot curve : lab  = 2\n\nblock digA {\n  place := 7\n}\n",
        );
    desk.put("store.mz", "principals digA < lab slot place : digA = 1");
    let ran = desk.run(&["dis", "programme.mz", "--store=store.mz"]);
    assert!(ran.error.ends_with(": 2 slots, and there 1\n"), "{ran:?}");
    assert_eq!(ran.status, Some(2));
}

/// A customer's code is looked at before it runs.
#[test]
fn code_that_is_put_in_is_listed() {
    let desk = Desk::with("deputy.mz", DEPUTY);
    desk.put("deputy.bin", desk.sheets(DEPUTY));
    let customer = DEPUTY.replace("place := write curve", "result := 7");
    let customer = customer.replace("block lab  { [place] := 42 }", "");
    desk.put("customer.mz", customer);
    desk.run(&["asm", "customer.mz", "--only=code", "-o", "customer.bin"])
        .is(0, "", "");
    let note = |region| {
        format!("customer.bin: 21 bytes of code for block 0 (the one block of its region), region {region}, not endorsed\n")
    };
    for (file, region, command) in [
        ("deputy.mz", "digA", "result := 7\n"),
        ("deputy.bin", "p1", "s1 := 7\n"),
    ] {
        let block = format!("--block={region}=customer.bin");
        for text in [&[][..], &["--text"]] {
            let ran = desk.run(&[&["dis", file, &block], text].concat());
            assert_eq!((ran.error.clone(), ran.status), (note(region), Some(0)));
            assert!(ran.out().contains(command), "{ran:?}");
        }
    }
    desk.put("cut.bin", &desk.read("customer.bin")[..13]);
    let cut = ["dis", "deputy.mz", "--block=digA=cut.bin"];
    let ran = desk.run(&cut);
    assert_eq!(ran.status, Some(1));
    assert!(ran.out().contains("<-- refused by 9: "), "{ran:?}");
    let ran = desk.run(&[&cut[..], &["--text"]].concat());
    assert_eq!((ran.out(), ran.status), ("", Some(1)));
    assert!(
        ran.error.contains("\n  at cut.bin: byte 13, byte "),
        "{ran:?}"
    );
}

#[test]
fn sizes_have_to_make_sense() {
    let desk = Desk::with("x.bin", [0, 0, 0]);
    let help = "\n`muntyzhap help dis` says how to use it";
    let cases = [
        (&["--principals=3"][..], "--principals and --slots go with --programme-only"),
        (
            &["--programme-only", "--block=lab=y"],
            "--block and --programme-only do not go together: the regions' names are the store's, which --store gives",
        ),
        (&["--programme-only", "--principals=0"], "--principals: it is 1 to 32"),
        (&["--programme-only", "--slots=257"], "--slots: it is 0 to 256"),
        (
            &["--programme-only", "--store=y"],
            "--store and --programme-only do not go together: a store says what a programme alone does not",
        ),
    ];
    for (options, words) in cases {
        let arguments = [&["dis", "x.bin"], options].concat();
        desk.run(&arguments).fails(&format!("{words}{help}"));
    }
}
