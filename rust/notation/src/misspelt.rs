//! Words of statements that are misspelt at the start of a line.

use model::closest;

use crate::error::Errors;
use crate::token::{Kind, Token};
use crate::word::Word;

/// Each is told, and read on as the word that it is meant for. Only where a name can
/// stand in no text: outside braces, after something whole.
pub fn mend(tokens: &mut [Token], errors: &mut Errors) {
    let mut open: usize = 0;
    for next in 0..tokens.len() {
        let token = tokens[next];
        match token.kind {
            Kind::Sign("{") => open += 1,
            Kind::Sign("}") => open = open.saturating_sub(1),
            _ if token.starts_statement() => open = 0,
            _ => {}
        }
        let before = next.checked_sub(1).map(|before| tokens[before]);
        let after = tokens.get(next + 1);
        let is_target = after.is_some_and(|after| after.is(":="));
        if open > 0 || is_target || !is_after_whole(before, token) {
            continue;
        }
        if let Some(word) = meant(token) {
            let shown = token.shown();
            let message = format!("{STATEMENT}, found {shown}: did you mean `{word}`?");
            errors.add(token.place, message);
            tokens[next].kind = Kind::Word(word);
        }
    }
}

/// What has to stand where a statement starts.
pub const STATEMENT: &str = "expected `principals`, `slot`, `block` or `no blocks`";

/// Whether a token starts a line, and nothing that asks for more stands before it.
fn is_after_whole(before: Option<Token>, token: Token) -> bool {
    let Some(before) = before else {
        return true;
    };
    let is_whole = match before.kind {
        Kind::Name(_) | Kind::Number(_) => true,
        Kind::Word(word) => [Word::True, Word::False, Word::Blocks].contains(&word),
        Kind::Sign(sign) => ["}", ";"].contains(&sign),
        Kind::Wrong | Kind::End(_) => false,
    };
    is_whole && before.place.line < token.place.line
}

/// The word that a token is meant for, and is not.
fn meant(token: Token) -> Option<Word> {
    match token.kind {
        Kind::Name(name) if name.eq_ignore_ascii_case(Word::No.text()) => Some(Word::No),
        Kind::Name(name) => {
            let words = [Word::Principals, Word::Slot, Word::Block];
            Word::from_text(closest(name, words.map(Word::text))?)
        }
        Kind::Word(Word::Blocks) => Some(Word::Block),
        _ => None,
    }
}
