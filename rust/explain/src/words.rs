//! Lists in words.

/// How many of a list are named.
const MOST_NAMED: usize = 6;

/// The first ones, and how many more there are.
fn shortened(all: &[String]) -> Vec<String> {
    let more = all.len().saturating_sub(MOST_NAMED);
    let mut named: Vec<String> = all.iter().take(MOST_NAMED).cloned().collect();
    if more > 0 {
        named.push(format!("{more} more"));
    }
    named
}

/// "a", "a and b", "a, b and c"; of a long list the first ones.
pub fn list(all: &[String]) -> String {
    joined(all, "and")
}

/// "a", "a or b", "a, b or c".
pub fn list_or(all: &[String]) -> String {
    joined(all, "or")
}

fn joined(all: &[String], word: &str) -> String {
    match shortened(all).split_last() {
        None => String::new(),
        Some((last, [])) => last.clone(),
        Some((last, others)) => format!("{} {word} {last}", others.join(", ")),
    }
}

/// The same of words that have commas of their own.
pub fn clauses(all: &[String]) -> String {
    shortened(all).join(", and ")
}

/// Names that a sentence would take for a word of its own.
const MISREAD: [&str; 28] = [
    "all",
    "any",
    "anybody",
    "anyone",
    "both",
    "each",
    "either",
    "everybody",
    "everyone",
    "everything",
    "he",
    "it",
    "itself",
    "me",
    "neither",
    "no_one",
    "nobody",
    "none",
    "noone",
    "nothing",
    "others",
    "she",
    "somebody",
    "someone",
    "they",
    "we",
    "who",
    "you",
];

/// A principal's name as a sentence has it: "digA", but "the principal nobody".
pub fn called(name: &str) -> String {
    match MISREAD.contains(&name.to_lowercase().as_str()) {
        true => format!("the principal {name}"),
        false => name.to_string(),
    }
}

/// Such words at the start of a sentence. A name itself stays as it is.
pub fn at_start(called: &str) -> String {
    match called.strip_prefix("the principal ") {
        Some(name) => format!("The principal {name}"),
        None => called.to_string(),
    }
}

#[cfg(test)]
mod tests {
    use super::*;

    fn names(count: usize) -> Vec<String> {
        (0..count).map(|number| format!("s{number}")).collect()
    }

    #[test]
    fn lists_end_with_and() {
        let known = [
            (0, ""),
            (1, "s0"),
            (2, "s0 and s1"),
            (3, "s0, s1 and s2"),
            (6, "s0, s1, s2, s3, s4 and s5"),
            (256, "s0, s1, s2, s3, s4, s5 and 250 more"),
        ];
        for (count, text) in known {
            assert_eq!(list(&names(count)), text);
        }
    }
    #[test]
    fn names_that_read_as_words_are_set_apart() {
        let known = [
            ("digA", "digA"),
            ("nobody", "the principal nobody"),
            ("Nobody", "the principal Nobody"),
            ("nobody2", "nobody2"),
        ];
        for (name, words) in known {
            assert_eq!(called(name), words);
        }
    }
}
