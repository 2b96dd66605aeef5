//! From characters to tokens.

use crate::error::Errors;
use crate::place::Place;
use crate::sign::{DASHES, QUOTES, SIGNS, WRONG};
use crate::token::{Kind, Token};
use crate::word::Word;

const BYTE_ORDER_MARK: char = '\u{feff}';

/// All tokens of a text. What is none is told and left out; a sign that there is
/// not, or a bad number, is told and stands for one.
pub fn tokens<'t>(text: &'t str, errors: &mut Errors) -> Vec<Token<'t>> {
    let mut lexer = Lexer {
        text,
        at: 0,
        place: Place::START,
        errors,
    };
    if text.starts_with(BYTE_ORDER_MARK) {
        lexer.at = BYTE_ORDER_MARK.len_utf8();
    }
    let mut tokens = vec![];
    while let Some(first) = lexer.rest().chars().next() {
        let (at, place) = (lexer.at, lexer.place);
        if let Some(kind) = lexer.kind(first) {
            let (text, after) = (&text[at..lexer.at], lexer.place);
            tokens.push(Token {
                kind,
                text,
                at,
                place,
                after,
            });
        }
    }
    tokens
}

struct Lexer<'t, 'e> {
    text: &'t str,
    /// The next byte, and its place.
    at: usize,
    place: Place,
    errors: &'e mut Errors,
}

fn starts_name(character: char) -> bool {
    character.is_alphabetic() || character == '_'
}

fn in_name(character: char) -> bool {
    starts_name(character) || character.is_ascii_digit()
}

impl<'t> Lexer<'t, '_> {
    fn rest(&self) -> &'t str {
        &self.text[self.at..]
    }

    /// Goes on by so many bytes. A line ends with CR, LF or both.
    fn pass(&mut self, bytes: usize) -> &'t str {
        let passed = &self.rest()[..bytes];
        let mut characters = self.rest().chars().peekable();
        for _ in passed.chars() {
            let character = characters.next();
            let ends = match character {
                Some('\r') => characters.peek() != Some(&'\n'),
                other => other == Some('\n'),
            };
            match ends {
                true => {
                    self.place.line += 1;
                    self.place.column = 1;
                }
                false => self.place.column += 1,
            }
        }
        self.at += bytes;
        passed
    }

    fn pass_while(&mut self, passes: impl Fn(char) -> bool) -> &'t str {
        let rest = self.rest();
        let bytes = rest.find(|character| !passes(character));
        self.pass(bytes.unwrap_or(rest.len()))
    }

    /// The next token, unless what stands here is none.
    fn kind(&mut self, first: char) -> Option<Kind<'t>> {
        if first.is_whitespace() {
            self.pass_while(char::is_whitespace);
            return None;
        }
        if first == '#' {
            self.pass_line();
            return None;
        }
        if self.other_comment() {
            return None;
        }
        if starts_name(first) {
            let text = self.pass_while(in_name);
            return Some(Word::from_text(text).map_or(Kind::Name(text), Kind::Word));
        }
        if first.is_ascii_digit() {
            return Some(Kind::Number(self.number()));
        }
        let string = self.string(first);
        string
            .or_else(|| self.sign())
            .or_else(|| self.unknown(first))
    }

    fn pass_line(&mut self) {
        self.pass_while(|character| !['\n', '\r'].contains(&character));
    }

    /// Comments of other languages are told, and passed over as comments.
    fn other_comment(&mut self) -> bool {
        let rest = self.rest();
        let is_enclosed = rest.starts_with("/*");
        if !is_enclosed && !rest.starts_with("//") {
            return false;
        }
        let message = "a comment is from `#` to the end of the line";
        self.errors.add(self.place, message);
        let closing = rest.find("*/").filter(|at| is_enclosed && *at > 1);
        match closing {
            Some(at) => {
                self.pass(at + "*/".len());
            }
            None => self.pass_line(),
        }
        true
    }

    /// A string is told, and stands for a value. One that its line does not close is
    /// taken to be one word.
    fn string(&mut self, first: char) -> Option<Kind<'t>> {
        let (open, close) = QUOTES.into_iter().find(|(open, _)| *open == first)?;
        let message = "there are no strings: a value is an integer, a truth value or a view";
        self.errors.add(self.place, message);
        self.pass(open.len_utf8());
        let rest = self.rest();
        let line = rest.split(['\n', '\r']).next().unwrap_or(rest);
        match line.find(close) {
            Some(at) => self.pass(at + close.len_utf8()),
            None => self.pass_while(in_name),
        };
        Some(Kind::Number(0))
    }

    fn sign(&mut self) -> Option<Kind<'t>> {
        let rest = self.rest();
        if let Some((sign, instead)) = WRONG.iter().find(|(sign, _)| rest.starts_with(sign)) {
            let message = format!("there is no `{sign}`: {instead}");
            self.errors.add(self.place, message);
            self.pass(sign.len());
            self.pass_while(|next| {
                WRONG
                    .iter()
                    .any(|(sign, _)| sign.starts_with(next) && sign.len() == 1)
            });
            return Some(Kind::Wrong);
        }
        let sign = SIGNS.into_iter().find(|sign| rest.starts_with(sign))?;
        self.pass(sign.len());
        Some(Kind::Sign(sign))
    }

    /// A number; a bad one is told, and is 0.
    fn number(&mut self) -> u64 {
        let place = self.place;
        let text = self.pass_while(in_name);
        let point = self.rest().strip_prefix(['.', ',']);
        let has_point =
            point.is_some_and(|after| after.starts_with(|next: char| next.is_ascii_digit()));
        if has_point {
            self.pass(1);
            self.pass_while(in_name);
        }
        match judged(text, has_point) {
            Ok(number) => number,
            Err(message) => {
                self.errors.add(place, message);
                0
            }
        }
    }

    /// Characters in a row that start no token.
    fn unknown(&mut self, first: char) -> Option<Kind<'t>> {
        let code = format!("U+{:04X}", u32::from(first));
        let shown = match first.escape_debug().count() == 1 {
            true if first.is_ascii() => format!("`{first}`"),
            true => format!("`{first}` ({code})"),
            false => code,
        };
        if DASHES.contains(&first) {
            let message = format!("{shown} is no minus sign: write `-`");
            self.errors.add(self.place, message);
            self.pass(first.len_utf8());
            return Some(Kind::Sign("-"));
        }
        let message = format!("the character {shown} has no meaning here");
        self.errors.add(self.place, message);
        self.pass(first.len_utf8());
        self.pass_while(is_unknown);
        None
    }
}

/// Whether no token, space or comment starts with this character.
fn is_unknown(character: char) -> bool {
    let signs = SIGNS.iter().chain(WRONG.iter().map(|(sign, _)| sign));
    !character.is_whitespace()
        && character != '#'
        && !starts_name(character)
        && !character.is_ascii_digit()
        && !DASHES.contains(&character)
        && !QUOTES.iter().any(|(open, _)| *open == character)
        && !signs.into_iter().any(|sign| sign.starts_with(character))
}

/// The number that these characters are, from a digit on.
fn judged(text: &str, has_point: bool) -> Result<u64, &'static str> {
    let others = |character: char| !character.is_ascii_digit() && character != '_';
    if text.starts_with("0x") || text.starts_with("0X") {
        return Err("numbers are decimal, without `0x`");
    }
    if text.contains(others) {
        return Err("a number has digits alone, and a name does not begin with one");
    }
    if text.ends_with('_') || text.contains("__") {
        return Err("in a number each `_` stands between two digits");
    }
    if has_point {
        return Err("numbers are whole; `_` may stand between digits, as in `50_000`");
    }
    let digits = text.bytes().filter(u8::is_ascii_digit);
    Ok(digits.fold(0, |number: u64, digit| {
        let number = number.saturating_mul(10);
        number.saturating_add(u64::from(digit - b'0'))
    }))
}
