//! The pause sheet of a run in stretches: where it stands.

use crate::{join, Bytes};

/// "a lent buffer of exactly 256 bytes" (document 02, N8)
pub const PAUSE: usize = 256;
/// The bytes ahead of the two arrays: steps so far, path length, block number.
pub const PAUSE_HEAD: usize = 4 + 1 + 1;
/// "the child taken (from 0; then-part 0, else-part 1, body 0)"
pub const THEN_PART: u8 = 0;
pub const ELSE_PART: u8 = 1;
pub const BODY: u8 = 0;

/// A child taken, and the branch label inside it.
pub type Taken = (u8, u8);

/// "steps so far (4 bytes), path length (1), block number (1), then two parallel
/// arrays of one byte an entry"; "Unused bytes are 0."
pub fn pause(steps: u32, block: u8, path: &[Taken]) -> Bytes {
    let length = u8::try_from(path.len()).expect("a length of one byte");
    let children: Bytes = path.iter().map(|(child, _)| *child).collect();
    let labels: Bytes = path.iter().map(|(_, label)| *label).collect();
    let mut sheet = join(&[&steps.to_le_bytes(), &[length, block], &children, &labels]);
    assert!(sheet.len() <= PAUSE, "a path that the sheet holds");
    sheet.resize(PAUSE, 0);
    sheet
}

#[cfg(test)]
mod tests {
    use super::*;
    use crate::hex;

    /// The arrays are packed: the labels start where the children end.
    #[test]
    fn labels_stand_behind_the_children() {
        let sheet = pause(0x0403_0201, 7, &[(2, 10), (ELSE_PART, 11), (BODY, 12)]);
        let (used, unused) = sheet.split_at(PAUSE_HEAD + 6);
        assert_eq!(used, hex("01020304 03 07 020100 0A0B0C"));
        assert_eq!(unused, [0; 244]);
    }

    #[test]
    fn a_path_may_be_empty() {
        let sheet = pause(9, 63, &[]);
        assert_eq!(sheet[..PAUSE_HEAD], hex("09000000 00 3F"));
        assert_eq!(sheet[PAUSE_HEAD..], [0; 250]);
        assert_eq!(pause(0, 0, &[(0, 0); 125]).len(), PAUSE);
    }
}
