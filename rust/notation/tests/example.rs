//! The example of `docs/NOTATION.md`.

mod common;

use common::{bytes, reader};
use muntyzhap::{check_programme, check_store, run, Refusal, Rule};
use notation::{assemble, text, Place};

/// The example of `docs/NOTATION.md`.
const EXAMPLE: &str = "principals nobody < digA, digB < lab
slot place  : digA = write result
slot result : digA = 0
slot curve  : lab  = 50000
block digA { place := write curve }
block lab  { [place] := 42 }
";

#[test]
fn the_example_comes_to_its_sheets() {
    let both = assemble(EXAMPLE).expect("a good text");
    let (store, programme) = (both.store.unwrap(), both.programme.unwrap());
    let expected = "04 0300 01000000 03000000 05000000 0F000000 01 01 03
        03 0100000000000000 00 0000000000000000 00 50C3000000000000";
    assert_eq!(store, bytes(&expected.replace('\n', "")));
    let expected = "02 2B00 01 03 1500 1600 00 00
        21 10 03 0000000000000000 10 03 0200000000000000
        21 11 10 02 0000000000000000 10 00 2A00000000000000";
    assert_eq!(programme, bytes(&expected.replace('\n', "")));
    assert_eq!(check_store(&store), Ok(()));
    assert_eq!(check_programme(&programme, 4, 3), Ok(()));
    let refused = run(&store, &programme, Rule::FullProvenance, 1000);
    let Err(Refusal::ProvenanceTooLow(stop)) = refused else {
        panic!("{refused:?}");
    };
    assert_eq!((stop.place.block, stop.place.offset), (1, 0));
}

#[test]
fn names_and_places_of_the_example() {
    let both = assemble(EXAMPLE).expect("a good text");
    assert_eq!(both.names.principals, ["nobody", "digA", "digB", "lab"]);
    assert_eq!(both.names.slots, ["place", "result", "curve"]);
    assert_eq!(both.names.blocks, [None, None]);
    let place = |line, column| Some(Place { line, column });
    assert_eq!(both.places.principal(3), place(1, 34));
    assert_eq!(both.places.principal(4), None);
    assert_eq!(both.places.slot(2), place(4, 6));
    assert_eq!(both.places.slot(3), None);
    assert_eq!(both.places.block(1), place(6, 1));
    assert_eq!(both.places.command(0, 0), place(5, 14));
    assert_eq!(both.places.command(1, 0), place(6, 14));
    assert_eq!(both.places.command(1, 1), None);
    assert_eq!(both.places.command(2, 0), None);
}

/// The example is written canonically but for its blocks, which have a line each.
#[test]
fn the_canonical_text_of_the_example() {
    let both = assemble(EXAMPLE).expect("a good text");
    let store = reader::store(&both.store.unwrap());
    let programme = reader::programme(&both.programme.unwrap());
    let lines: Vec<&str> = EXAMPLE.lines().take(4).collect();
    let canonical = lines.join("\n")
        + "\nblock digA {\n  place := write curve\n}\nblock lab {\n  [place] := 42\n}\n";
    let text = text::store(&store, &both.names) + &text::programme(&programme, &both.names);
    assert_eq!(text, canonical);
}

/// The whole of `docs/NOTATION.md`.
fn document() -> String {
    let file = concat!(env!("CARGO_MANIFEST_DIR"), "/../../docs/NOTATION.md");
    std::fs::read_to_string(file).expect("the document")
}

/// Its indented parts, each without the indent.
fn indented(document: &str) -> Vec<String> {
    let mut parts = vec![String::new()];
    for line in document.lines() {
        match (line.strip_prefix("    "), parts.last_mut()) {
            (Some(line), Some(part)) => *part += &format!("{line}\n"),
            _ => parts.push(String::new()),
        }
    }
    parts.retain(|part| !part.is_empty());
    parts
}

#[test]
fn the_document_has_the_example_and_the_errors_as_they_are() {
    let parts = indented(&document());
    let [example, grammar, bad, shown] = parts.as_slice() else {
        panic!("{parts:?}");
    };
    assert!(grammar.starts_with("text "));
    assert!(example.ends_with(EXAMPLE), "{example}");
    let (one, other) = (assemble(example).unwrap(), assemble(EXAMPLE).unwrap());
    assert_eq!((one.store, one.programme), (other.store, other.programme));
    let told = assemble(bad).expect_err("a bad text").into_iter();
    let told: String = told.map(|error| format!("bad.mz:{error}\n")).collect();
    assert!(!told.is_empty() && shown.contains(&told), "{shown}");
}

#[test]
fn the_reserved_words_of_the_document_are_no_names() {
    let document = document();
    let (_, words) = document
        .split_once("Reserved, and no names, are ")
        .expect("them");
    let (words, _) = words.split_once('.').expect("an end");
    let words: Vec<&str> = words
        .split_whitespace()
        .map(|word| word.trim_matches('`'))
        .collect();
    assert_eq!(words.len(), 17);
    for word in words {
        let text = format!("principals {word}");
        let told = assemble(&text).expect_err("no name")[0].to_string();
        let statements = ["principals", "slot", "block", "no"];
        let expected = match statements.contains(&word) {
            true => format!("1:11: expected a principal's name before `{word}`"),
            false => format!(
                "1:12: expected a principal's name; `{word}` is a reserved word and no name"
            ),
        };
        assert_eq!(told, expected);
        assert!(assemble(&format!("principals {word}_")).is_ok());
    }
}
