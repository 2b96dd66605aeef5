//! The signs, and those of other languages that there are not.

/// Longer ones first: the first that fits is taken.
pub const SIGNS: [&str; 15] = [
    ":=", "==", "{", "}", "[", "]", "(", ")", ";", ",", ":", "=", "<", "+", "-",
];

const OPERATIONS_ALONE: &str = "the operations are `+`, `-`, `<` and `==`";
pub const NESTED: &str = "put an `if` inside an `if`";
pub const ELSE_IF: &str = "write `if a { .. } else if b { .. }`";

/// Signs that there are not, and what to write instead. Longer ones first.
pub const WRONG: [(&str, &str); 15] = [
    ("<=", "for `a <= b` write `(b < a) == false`"),
    (">=", "for `a >= b` write `(a < b) == false`"),
    ("!=", "for `a != b` write `(a == b) == false`"),
    ("&&", NESTED),
    ("||", ELSE_IF),
    ("->", OPERATIONS_ALONE),
    (">", "for `a > b` write `b < a`"),
    ("!", "for `!a` write `a == false`"),
    ("&", NESTED),
    ("|", ELSE_IF),
    ("*", OPERATIONS_ALONE),
    ("/", OPERATIONS_ALONE),
    ("%", OPERATIONS_ALONE),
    ("^", OPERATIONS_ALONE),
    ("?", OPERATIONS_ALONE),
];

/// Marks of strings, which there are not: the opening and the closing one.
pub const QUOTES: [(char, char); 4] = [
    ('"', '"'),
    ('\'', '\''),
    ('\u{201c}', '\u{201d}'),
    ('\u{2018}', '\u{2019}'),
];

/// Characters that look like a minus sign and are none.
pub const DASHES: [char; 4] = ['\u{2010}', '\u{2212}', '\u{2013}', '\u{2014}'];
