//! Sheets written out, and names for them.

use model::Names;

/// A sheet in hexadecimal, with spaces and newlines anywhere.
pub fn bytes(sheet: &str) -> Vec<u8> {
    let digits: Vec<u8> = sheet
        .bytes()
        .filter(|byte| !byte.is_ascii_whitespace())
        .collect();
    let pairs = digits.chunks(2);
    pairs
        .map(|pair| {
            let pair = std::str::from_utf8(pair).expect("digits");
            u8::from_str_radix(pair, 16).expect("a byte")
        })
        .collect()
}

pub fn names() -> Names {
    let list = |names: &[&str]| names.iter().map(|name| name.to_string()).collect();
    Names {
        principals: list(&["dig", "lab"]),
        slots: list(&["age", "curve"]),
        blocks: vec![None, Some("edit".to_string())],
    }
}
