//! Words that many messages share.

/// So many of something: `1 step`, `2 steps`.
pub fn count(number: usize, of: &str) -> String {
    match number {
        1 => format!("1 {of}"),
        _ => format!("{number} {of}s"),
    }
}

#[cfg(test)]
mod tests {
    use super::*;

    #[test]
    fn counts_have_their_plural() {
        let counts = [0, 1, 2, 1_000_000].map(|number| count(number, "step"));
        assert_eq!(counts, ["0 steps", "1 step", "2 steps", "1000000 steps"]);
    }
}
