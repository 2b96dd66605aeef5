//! Whatever the text, there is an answer: sheets that the library takes, or errors
//! in order.

mod common;

use common::Random;
use muntyzhap::{check_programme, check_store};
use notation::assemble;

const TEXTS: u64 = 100_000;

/// No text is too bad for an answer; what is assembled is good.
fn judge(text: &str) {
    match assemble(text) {
        Ok(both) => {
            assert!(both.store.is_some() || both.programme.is_some(), "{text}");
            let words = |word: &str| {
                let lines = text.split(['\n', '\r']);
                let code = lines.filter_map(|line| line.split('#').next());
                code.flat_map(str::split_whitespace)
                    .filter(|own| *own == word)
                    .count()
            };
            assert_eq!(both.names.slots.len(), words("slot"), "{text}");
            assert_eq!(both.names.blocks.len(), words("block"), "{text}");
            let (mut principals, mut slots) = (32, 256);
            if let Some(store) = &both.store {
                (principals, slots) = (both.names.principals.len(), both.names.slots.len());
                assert_eq!(check_store(store), Ok(()), "{text}");
            }
            if let Some(programme) = &both.programme {
                let answer = check_programme(programme, principals, slots);
                assert_eq!(answer, Ok(()), "{text}");
            }
        }
        Err(errors) => {
            assert!(!errors.is_empty() && errors.len() <= 21, "{text}");
            let lines = text.split(['\n', '\r']).count();
            for error in &errors {
                assert!(
                    (1..=lines).contains(&error.line) && error.column > 0,
                    "{error}\n{text}"
                );
                assert!(
                    !error.message.is_empty() && !error.message.contains(['\n', '\r', '\u{1b}'])
                );
            }
            let place = |pair: &[notation::Error]| {
                let place = |error: &notation::Error| (error.line, error.column);
                place(&pair[0]) < place(&pair[1])
            };
            assert!(errors.windows(2).all(place), "{errors:?}\n{text}");
        }
    }
}

/// Every word and sign, some that there are not, and names that may be declared.
fn all_tokens() -> Vec<&'static str> {
    let tokens = "principals slot block no blocks endorsed down to ignored skip if else while read write true \
                  false { } [ ] ( ) ; , : := = == < + - 1 300 9223372036854775808 p0 s0 s1 a b x lab > != $ # 0x1 1_";
    let mut tokens: Vec<&str> = tokens
        .split(' ')
        .filter(|token| !token.is_empty())
        .collect();
    tokens.push("\n");
    tokens
}

#[test]
fn soups_of_tokens_get_an_answer() {
    let all = all_tokens();
    for case in 0..TEXTS / 2 {
        let mut random = Random::of(case);
        let count = random.below(60);
        let tokens: Vec<&str> = (0..count).map(|_| *random.pick(&all)).collect();
        judge(&tokens.join(" "));
    }
}

/// Good texts with a token put in, left out or changed.
#[test]
fn damaged_texts_get_an_answer() {
    let good = "principals n < a , b < lab slot x : a = 1 slot y : lab = write x block one : a \
                endorsed down to n { x := [ y ] + 1 ; if x < 3 { skip } else if y == read x { x := \
                ( x - 1 ) ; } else { while true { skip } } } block lab ignored 3 { [ y ] := x }";
    judge(good);
    assert!(assemble(good).is_ok());
    let good: Vec<&str> = good.split(' ').collect();
    let all = all_tokens();
    for case in 0..TEXTS / 4 {
        let mut random = Random::of(case);
        let mut tokens = good.clone();
        for _ in 0..1 + random.below(3) {
            let place = random.below(tokens.len());
            match random.below(3) {
                0 => tokens.insert(place, *random.pick(&all)),
                1 => tokens[place] = *random.pick(&all),
                _ => drop(tokens.remove(place)),
            }
        }
        judge(&tokens.join(if random.one_in(2) { " " } else { "\n" }));
    }
}

#[test]
fn any_bytes_as_text_get_an_answer() {
    for case in 0..TEXTS / 4 {
        let mut random = Random::of(case);
        let count = random.below(200);
        let bytes: Vec<u8> = (0..count).map(|_| random.next() as u8).collect();
        judge(&String::from_utf8_lossy(&bytes));
        let characters = (0..count).filter_map(|_| {
            let bits = random.below(22);
            char::from_u32(random.next() as u32 & ((1 << bits) - 1))
        });
        judge(&characters.collect::<String>());
    }
}

/// Far more of anything than a sheet or the stack holds.
#[test]
fn very_long_texts_get_an_answer() {
    let heads = [
        "",
        "block p0 ",
        "block p0 { s0 := ",
        "block p0 { ",
        "principals a < b slot x : a = ",
    ];
    let nesting = [
        "{",
        "[",
        "(",
        "-",
        "!",
        "if s0 {",
        "if s0 { skip } else ",
        "1 + ",
        "{ skip; ",
    ];
    let others = "}|]|)|else if s0 {|1 < |s0 := 1;|while s0 |slot |block |no |principals |a, |a < |read |;|x";
    for head in heads {
        for piece in others.split('|').chain(nesting) {
            judge(&(head.to_string() + &piece.repeat(2_000)));
        }
    }
    for head in &heads[2..4] {
        for piece in nesting {
            judge(&(head.to_string() + &piece.repeat(100_000)));
        }
    }
}

/// As deep as code goes, and brackets that are closed.
#[test]
fn deep_texts_are_read_as_far_as_they_may_nest() {
    let around = |open: &str, count: usize, inner: &str, close: &str| {
        format!(
            "block p0 {{ {}{inner}{} }}",
            open.repeat(count),
            close.repeat(count)
        )
    };
    let cases = [
        (around("{", 100, "skip", "}"), true),
        (around("{", 1_000, "skip", "}"), false),
        (around("while s0 {", 31, "skip", "}"), true),
        (around("while s0 {", 32, "skip", "}"), false),
        (around("{ skip;", 31, "skip", "}"), true),
        (around("{ skip;", 32, "skip", "}"), false),
        (around("if s0 { skip } else { ", 31, "s0 := 1", "}"), true),
        (around("if s0 { skip } else { ", 32, "s0 := 1", "}"), false),
        (
            around("s0 := (", 1, &(around_alone("(", 100, "1", ")")), ")"),
            true,
        ),
        (
            around("s0 := ", 1, &around_alone("(", 1_000, "1", ")"), ""),
            false,
        ),
        (
            around("s0 := ", 1, &around_alone("[", 8, "1", "]"), ""),
            true,
        ),
        (
            around("s0 := ", 1, &around_alone("[", 9, "1", "]"), ""),
            false,
        ),
        (
            around("s0 := ", 1, &around_alone("[", 8, "s0", "]"), ""),
            false,
        ),
        (around("s0 := ", 1, &"1 + ".repeat(8), "1"), true),
        (around("s0 := ", 1, &"1 + ".repeat(9), "1"), false),
    ];
    for (text, is_good) in cases {
        judge(&text);
        assert_eq!(assemble(&text).is_ok(), is_good, "{text}");
    }
}

fn around_alone(open: &str, count: usize, inner: &str, close: &str) -> String {
    open.repeat(count) + inner + &close.repeat(count)
}
