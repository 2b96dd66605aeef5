//! What each form comes to, byte for byte, and its canonical text.

mod common;

use common::{bytes, reader};
use model::{Code, Names};
use notation::{assemble, text, Place};

/// The code of a programme's only block.
fn code(text: &str) -> Vec<u8> {
    let assembled = assemble(text).unwrap_or_else(|errors| panic!("{errors:?}\n{text}"));
    let programme = reader::programme(&assembled.programme.expect("a programme"));
    match &programme.blocks[0].code {
        Code::Command(command) => notation::emit(command).bytes,
        Code::Raw(bytes) => bytes.clone(),
    }
}

/// Each command and expression, canonically, and its bytes, where T is an
/// assignment to s0, A and B are reads of s1 and s2, and I is the literal 1.
const FORMS: &str = "
    skip                        = 20
    s0 := 1                     = T I
    s0 := -1                    = T 10 00 FFFFFFFFFFFFFFFF
    s0 := 9223372036854775807   = T 10 00 FFFFFFFFFFFFFF7F
    s0 := -9223372036854775808  = T 10 00 0000000000000080
    s0 := true                  = T 10 01 0100000000000000
    s0 := false                 = T 10 01 0000000000000000
    s0 := read s255             = T 10 02 FF00000000000000
    s0 := write s1              = T 10 03 0100000000000000
    s0 := s1                    = T A
    s0 := [s1]                  = T 11 A
    s0 := [[s1]]                = T 11 11 A
    s0 := [1]                   = T 11 I
    s0 := s1 + s2               = T 12 A B
    s0 := s1 - s2               = T 13 A B
    s0 := s1 < s2               = T 14 A B
    s0 := s1 == s2              = T 15 A B
    s0 := s1 - s2 + 1           = T 12 13 A B I
    s0 := s1 - (s2 + 1)         = T 13 A 12 B I
    s0 := 1 - -1                = T 13 I 10 00 FFFFFFFFFFFFFFFF
    s0 := s1 + 1 < s2 - 1       = T 14 12 A I 13 B I
    s0 := (s1 < s2) == false    = T 15 14 A B 10 01 0000000000000000
    s0 := 1 + (s1 == 1)         = T 12 I 15 A I
    [s1] := 1                   = 21 A I
    [read s1] := 1              = 21 10 02 0100000000000000 I
    [s1 + 1] := 1               = 21 12 A I I";

#[test]
fn forms_and_their_bytes() {
    for line in FORMS.lines().skip(1) {
        let (command, expected) = line.rsplit_once("  = ").expect("a form and its bytes");
        let expected = expected
            .replace('A', "11 10 02 0100000000000000")
            .replace('B', "11 10 02 0200000000000000")
            .replace('T', "21 10 03 0000000000000000")
            .replace('I', "10 00 0100000000000000");
        let written = format!("block p0 {{\n  {}\n}}\n", command.trim());
        assert_eq!(code(&written), bytes(&expected), "{command}");
        assert_eq!(canonical(&written), written);
    }
}

fn canonical(text: &str) -> String {
    let assembled = assemble(text).unwrap_or_else(|errors| panic!("{errors:?}\n{text}"));
    let programme = reader::programme(&assembled.programme.expect("a programme"));
    text::programme(&programme, &assembled.names)
}

/// Each way of writing the same; the first of a line is what stands first in the
/// canonical text.
const WAYS: &str = "
    s0 := s1 | [write s0] := [read s1] | s0 := (s1); | { s0 := s1 } | {{s0:=((s1))};};
    s0 := s1 + s2 + 3 | s0 := (s1 + s2) + 3 | s0 := (s1+s2)+0_03
    s0 := s1 - 5 | s0 := s1-5 | s0 := s1 -5
    s0 := -5 | s0 := - 5 | s0 := (-5)
    if s0 { skip } | if s0 { skip } else { skip } | if (s0) { skip; } else {{ skip }}
    if s0 { skip } else if s1 { s0 := 1 } | if s0 { skip } else { if s1 { s0 := 1 } else { skip } }
    while s0 < 3 { s0 := s0 + 1 } | while (s0 < 3) {{ s0 := s0 + 1 }}
    s0 := 1; s1 := 2 | { s0 := 1; s1 := 2 } | s0 := 1; { s1 := 2; };
    s0 := 1; { s1 := 2; skip } | s0 := 1; {s1 := 2; skip};";

#[test]
fn what_may_be_written_in_several_ways() {
    for line in WAYS.lines().skip(1) {
        let ways: Vec<&str> = line.split('|').collect();
        let written = format!("block p0 {{ {} }}", ways[0].trim());
        for way in ways {
            let canonical = canonical(&format!("block p0 {{ {way} }}"));
            let words: Vec<&str> = canonical.split_whitespace().collect();
            assert_eq!(words.join(" "), written, "{way}");
        }
    }
    let nested = "block p0 {\n  s0 := 1;\n  {\n    s1 := 2;\n    skip\n  }\n}\n";
    assert_eq!(canonical(nested), nested);
    let chain =
        "block p0 {\n  if s0 {\n    skip\n  } else if s1 {\n    skip;\n    skip\n  } else {\n    \
                 while s0 {\n      s0 := 1\n    }\n  }\n}\n";
    assert_eq!(canonical(chain), chain);
}

#[test]
fn heads_of_blocks() {
    let heads = [
        ("p5", "05", "00"),
        ("p31 endorsed down to p2", "9F", "02"),
        ("p0 ignored 255", "00", "FF"),
        ("first : p1", "01", "00"),
        ("p1 : p1 endorsed down to p1", "81", "01"),
    ];
    for (head, region, floor) in heads {
        let text = format!("block {head} {{\n  skip\n}}\n");
        let sheet = assemble(&text)
            .expect("a good text")
            .programme
            .expect("one");
        let expected = format!("01 0100 {region} 0100 {floor} 20");
        assert_eq!(sheet, bytes(&expected), "{head}");
        assert_eq!(canonical(&text), text);
    }
    assert_eq!(
        assemble("no blocks").unwrap().programme,
        Some(bytes("00 0000"))
    );
    assert_eq!(canonical("no # comment\n blocks"), "no blocks\n");
    let same = assemble("block p0 ignored 0 { skip }").unwrap();
    assert_eq!(
        text::programme(&reader::programme(&same.programme.unwrap()), &same.names),
        "block p0 {\n  skip\n}\n"
    );
}

/// Principals in lines, as few as come to the same numbers.
#[test]
fn orders() {
    let cases = [
        ("principals only\n", "01000000"),
        ("principals a < b\n", "01000000 03000000"),
        ("principals b, a\nprincipals a < b\n", "03000000 02000000"),
        (
            "principals n < a, b < lab\n",
            "01000000 03000000 05000000 0F000000",
        ),
        (
            "principals n < a, b < x < top\nprincipals b < y < top\n",
            "01000000 03000000 05000000 0F000000 1F000000",
        ),
    ];
    for (text, masks) in &cases[..4] {
        let store = assemble(text).expect("a good text").store.expect("a store");
        let masks = bytes(masks);
        let count = (masks.len() / 4) as u8;
        assert_eq!(store, [vec![count, 0, 0], masks].concat(), "{text}");
        let names = assemble(text).unwrap().names;
        assert_eq!(text::store(&reader::store(&store), &names), *text);
    }
    // `top` is above `y` here, which is above `b` alone.
    let both = assemble(cases[4].0).expect("a good text");
    let store = reader::store(&both.store.unwrap());
    assert_eq!(store.masks, [1, 3, 5, 15, 0b111111, 0b100101]);
    let text = text::store(&store, &both.names);
    assert_eq!(assemble(&text).expect("a good text").names, both.names);
}

/// A text in which nothing can be put for raw bytes does not assemble.
#[test]
fn raw_code_is_not_taken_for_a_command() {
    let block = model::Block {
        region: 0,
        floor: model::Floor::Ignored(0),
        code: Code::Raw(vec![0x20]),
    };
    let programme = model::Programme {
        blocks: vec![block],
    };
    let text = text::programme(&programme, &Names::default());
    assert_eq!(
        text,
        "block p0 {\n  # 1 bytes of code that are no command\n}\n"
    );
    assert!(assemble(&text).is_err());
    let sheet = notation::programme_bytes(&programme);
    assert_eq!(sheet, Ok(bytes("01 0100 00 0100 00 20")));
}

/// A byte order mark counts as nothing, and lines end as they do anywhere.
#[test]
fn line_ends() {
    for end in ["\n", "\r\n", "\r"] {
        let text = [
            "\u{feff}principals a # one",
            "slot x : a = 1",
            "block a { x := 2 }",
            "",
        ];
        let both = assemble(&text.join(end)).expect("a good text");
        assert_eq!(
            both.places.principal(0),
            Some(Place {
                line: 1,
                column: 12
            })
        );
        assert_eq!(
            both.places.command(0, 0),
            Some(Place {
                line: 3,
                column: 11
            })
        );
    }
}

/// Names that are close to the words of statements may start a line wherever a name
/// may stand.
#[test]
fn names_close_to_words_of_statements() {
    let text = "principals a <
  block1, slots <
  Principals
slot
  slot1 : a
block
  Block : a { slot1 :=
  slot1
}
";
    let names = assemble(text).expect("a good text").names;
    assert_eq!(names.principals, ["a", "block1", "slots", "Principals"]);
    assert_eq!(names.blocks, [Some("Block".to_string())]);
}
