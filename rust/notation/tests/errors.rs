//! Bad texts with all that is told of them.

use notation::assemble;

/// Texts, after each a line of hyphens and what is told of it; lines of equals
/// signs between.
const BAD_TEXTS: &str = include_str!("bad_texts.txt");

/// What is told, each error as it is displayed.
fn told(text: &str) -> Vec<String> {
    match assemble(text) {
        Ok(_) => vec![],
        Err(errors) => errors.iter().map(|error| error.to_string()).collect(),
    }
}

#[test]
fn every_bad_text_is_told_in_full() {
    let cases: Vec<&str> = BAD_TEXTS.split("====\n").collect();
    assert!(cases.len() > 90);
    for case in cases {
        let (text, expected) = case.split_once("----\n").expect("a text and its errors");
        assert!(!expected.is_empty(), "{text}");
        let expected: Vec<&str> = expected.lines().collect();
        assert_eq!(told(text), expected, "{text}");
    }
}

#[test]
fn texts_with_nothing_in_them() {
    for text in ["", "\n", "  \n# nothing yet\n", "\u{feff}"] {
        let told = told(text);
        assert_eq!(told.len(), 1);
        assert!(told[0].starts_with("1:1: there is nothing here: a text has a store"));
    }
}

/// What a screen would not show, or would obey, is told by its number.
#[test]
fn characters_that_are_not_shown() {
    for (text, number) in [
        ("\u{7}\u{1b}", "0007"),
        ("\u{202e}", "202E"),
        ("\u{301}", "0301"),
    ] {
        let expected = format!("1:12: the character U+{number} has no meaning here");
        let text = format!("block p0 {{ {text} s0 := 1 }}");
        assert_eq!(told(&text), [expected]);
    }
}

/// Each limit at the place where it is passed.
#[test]
fn limits() {
    let many = |count: usize, separator: &str, one: &dyn Fn(usize) -> String| {
        (0..count).map(one).collect::<Vec<_>>().join(separator)
    };
    let chain = |count| many(count, " < ", &|number| format!("a{number}"));
    let slots = |count| many(count, "\n", &|number| format!("slot x{number} : a = 1"));
    let blocks = |count| many(count, "\n", &|_| "block p0 { skip }".to_string());
    let commands = |count| many(count, "\n;", &|_| "skip".to_string());
    // Twelve sequences of 63 assignments, 2 bytes and 63 times 21, and one of 22,
    // leave room for 20 times `skip`.
    let long = |skips| {
        let assignments = |count| many(count, ";", &|_| "s0 := 1".to_string());
        let twelve = many(12, "\n", &|_| format!("block p0 {{ {} }}", assignments(63)));
        let skips = many(skips, "; ", &|_| "skip".to_string());
        format!("{twelve}\nblock p0 {{ {}\n;{skips} }}", assignments(22))
    };
    let cases = [
        (format!("principals {}", chain(32)), None),
        (
            format!("principals {}", chain(33)),
            Some("1:194: there are at most 32 principals, and this is one more"),
        ),
        (format!("principals a\n{}", slots(256)), None),
        (
            format!("principals a\n{}", slots(257)),
            Some("258:6: a store has at most 256 slots, and this is one more"),
        ),
        (blocks(64), None),
        (
            blocks(65),
            Some("65:1: a programme has at most 64 blocks, and this is one more"),
        ),
        (format!("block p0 {{ {} }}", commands(255)), None),
        (
            format!("block p0 {{ {} }}", commands(256)),
            Some(
                "256:2: braces have at most 255 commands: put some of them in braces of their own",
            ),
        ),
        (long(20), None),
        (
            long(21),
            Some(
                "14:122: a programme has at most 16384 bytes of code, and this command passes that",
            ),
        ),
    ];
    for (text, expected) in cases {
        assert_eq!(told(&text), expected.as_slice());
    }
}

/// Of many errors the first ones are told, and how many more there are.
#[test]
fn many_errors() {
    let many = |count| format!("block p0 {{\n{} }}", "s0 = 1;\n".repeat(count));
    assert_eq!(told(&many(20)).len(), 20);
    assert_eq!(told(&many(21))[20], "22:4: and 1 more error here");
    let hundred = told(&many(100));
    assert_eq!(hundred.len(), 21);
    assert_eq!(
        hundred[19],
        "21:4: an assignment is written with `:=`, not `=`"
    );
    assert_eq!(hundred[20], "22:4: and 80 more errors from here on");
}
