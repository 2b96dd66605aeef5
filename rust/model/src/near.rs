//! Names that are close to one that there is not.

/// How many are told.
const MOST: usize = 3;
/// Longer names are not looked at.
const LONGEST: usize = 60;

/// Of the names that differ from this one by a slip or two of the pen the closest;
/// nothing where there are none.
pub fn closest<'n>(name: &str, names: impl IntoIterator<Item = &'n str>) -> Option<&'n str> {
    close(name, names).into_iter().next()
}

/// `did you mean ..?` with the names that differ from this one by a slip or two
/// of the pen, closest first; nothing where there are none.
pub fn suggestion<'n>(name: &str, names: impl IntoIterator<Item = &'n str>) -> Option<String> {
    let close = close(name, names).into_iter().take(MOST);
    let close: Vec<String> = close.map(|name| format!("`{name}`")).collect();
    (!close.is_empty()).then(|| format!("did you mean {}?", close.join(" or ")))
}

/// All that are close, the closest first.
fn close<'n>(name: &str, names: impl IntoIterator<Item = &'n str>) -> Vec<&'n str> {
    let Some(written) = letters(name) else {
        return vec![];
    };
    let allowed = match written.len() {
        1 => 0,
        2..=4 => 1,
        _ => 2,
    };
    let mut close: Vec<(usize, &str)> = names
        .into_iter()
        .filter_map(|other| Some((distance(&written, &letters(other)?, allowed)?, other)))
        .collect();
    close.sort_by_key(|(distance, _)| *distance);
    close.into_iter().map(|(_, name)| name).collect()
}

/// Upper and lower case count as the same.
fn letters(name: &str) -> Option<Vec<char>> {
    let letters: Vec<char> = name.chars().take(LONGEST + 1).collect();
    (letters.len() <= LONGEST).then(|| letters.iter().flat_map(|one| one.to_lowercase()).collect())
}

/// How many letters are put in, left out, changed or swapped with the next, if not
/// more than are allowed.
fn distance(one: &[char], other: &[char], allowed: usize) -> Option<usize> {
    if one.len().abs_diff(other.len()) > allowed {
        return None;
    }
    let mut before: Vec<usize> = vec![];
    let mut row: Vec<usize> = (0..=other.len()).collect();
    for (i, letter) in one.iter().enumerate() {
        let mut next = vec![i + 1];
        for (j, against) in other.iter().enumerate() {
            let changed = row[j] + usize::from(letter != against);
            let mut least = changed.min(row[j + 1] + 1).min(next[j] + 1);
            if i > 0 && j > 0 && *letter == other[j - 1] && *against == one[i - 1] {
                least = least.min(before[j - 1] + 1);
            }
            next.push(least);
        }
        before = std::mem::replace(&mut row, next);
    }
    row.last().copied().filter(|distance| *distance <= allowed)
}

#[cfg(test)]
mod tests {
    use super::*;

    #[test]
    fn slips_of_the_pen_are_close() {
        let names = ["result", "results", "place", "p", "lab"];
        let cases = [
            ("resutl", Some("did you mean `result` or `results`?")),
            ("Result", Some("did you mean `result` or `results`?")),
            ("plase", Some("did you mean `place`?")),
            ("lba", Some("did you mean `lab`?")),
            ("q", None),
            ("P", Some("did you mean `p`?")),
            ("dig", None),
        ];
        for (name, told) in cases {
            assert_eq!(suggestion(name, names).as_deref(), told, "{name}");
            let first = closest(name, names).map(|name| format!("did you mean `{name}`"));
            let starts = |first: String| told.is_some_and(|told| told.starts_with(&first));
            assert_eq!(first.is_some_and(starts), told.is_some(), "{name}");
        }
    }
}
