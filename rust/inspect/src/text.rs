//! Lines of the notation. The text column of a good sheet's listing is a text that
//! assembles to the sheet.

use model::{Floor, Names, Store};

use notation::text::block_head;
pub(crate) use notation::text::{expression, slot, target};

/// What ends a block or a part.
pub(crate) const END: &str = "}";

/// A programme that has none.
pub(crate) const NO_BLOCKS: &str = "no blocks";

/// The lines of a good order table.
pub(crate) fn principals(masks: &[u32], names: &Names) -> String {
    let store = Store {
        masks: masks.to_vec(),
        slots: vec![],
    };
    notation::text::store(&store, names)
}

/// The line that a block starts with, and which block it is.
pub(crate) fn block(number: usize, region: u8, floor: Floor, names: &Names) -> String {
    let head = block_head(number, region, floor, names);
    format!("{head} {{  # block {number}")
}
