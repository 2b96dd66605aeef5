//! Words that are close to one that is not known.

use model::suggestion;

/// A question to put after a message about a word that is not known; nothing where
/// none is close.
pub fn perhaps<'a>(word: &str, words: impl IntoIterator<Item = &'a str>) -> String {
    let question = suggestion(word, words).map(|question| format!("; {question}"));
    question.unwrap_or_default()
}
