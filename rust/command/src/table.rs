//! Tables and counts in words.

use model::count;

/// Columns with two spaces between, each as wide as its widest cell. The last one
/// stands to the right, the others to the left.
pub fn table<const COLUMNS: usize>(head: [&str; COLUMNS], rows: &[[String; COLUMNS]]) -> String {
    let head = head.map(str::to_string);
    let lines = || [&head].into_iter().chain(rows);
    let widths: [usize; COLUMNS] = std::array::from_fn(|column| {
        let cells = lines().map(|line| line[column].chars().count());
        cells.max().unwrap_or(0)
    });
    let line = |cells: &[String; COLUMNS]| {
        let cells = cells.iter().zip(widths).enumerate();
        let cells = cells.map(|(column, (cell, width))| match column + 1 == COLUMNS {
            true => format!("{cell:>width$}\n"),
            false => format!("{cell:<width$}  "),
        });
        cells.collect::<String>()
    };
    lines().map(line).collect()
}

/// Such as `there is 1 slot` and `there are 2 slots`.
pub fn there_are(number: usize, of: &str) -> String {
    let verb = if number == 1 { "is" } else { "are" };
    format!("there {verb} {}", count(number, of))
}

#[cfg(test)]
mod tests {
    use super::*;

    #[test]
    fn columns_are_as_wide_as_their_widest_cell() {
        let rows = [["place", "ä", "12345678"], ["s", "lab", "0"]];
        let rows = rows.map(|row| row.map(str::to_string));
        let expected = "slot   owner    writes\n\
                        place  ä      12345678\n\
                        s      lab           0\n";
        assert_eq!(table(["slot", "owner", "writes"], &rows), expected);
        assert_eq!(table(["slot", "writes"], &[]), "slot  writes\n");
    }

    #[test]
    fn counts_have_their_verb() {
        let there_are = [1, 2].map(|number| there_are(number, "slot"));
        assert_eq!(there_are, ["there is 1 slot", "there are 2 slots"]);
    }
}
