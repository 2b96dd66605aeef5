//! The layout of both sheets: how wide their parts are, and where they start.

use model::Value;

pub(crate) use muntyzhap::sheet::{
    FLOOR_BYTES as FLOOR, LENGTH_BYTES as LENGTH, MASK_BYTES as MASK, OWNER_BYTES as OWNER,
    REGION_BYTES as REGION, SIZES_BYTES as SIZES,
};

/// The first of the two sizes that either sheet starts with, in one byte, and the
/// second.
pub(crate) const FIRST_SIZE: usize = 1;
pub(crate) const SECOND_SIZE: usize = SIZES - FIRST_SIZE;

/// How many principals and slots a store has.
#[derive(Debug, Clone, Copy, PartialEq, Eq)]
pub struct Sizes {
    pub principals: usize,
    pub slots: usize,
}

/// The length that these sizes ask of a store sheet.
pub(crate) fn store_bytes(sizes: Sizes) -> usize {
    SIZES + sizes.principals * MASK + sizes.slots * (OWNER + Value::BYTES)
}

/// Where the code of so many blocks starts.
pub(crate) fn code_start(blocks: usize) -> usize {
    SIZES + blocks * (REGION + LENGTH + FLOOR)
}

/// The store sheet that the bytes start with, and the programme sheet after it:
/// "The store sheet is as long as its sizes say, or all the bytes left where these
/// are fewer or hold no sizes; the rest is programme." (document 01)
pub fn split(bytes: &[u8]) -> (&[u8], &[u8]) {
    said_sizes(bytes)
        .and_then(|sizes| bytes.split_at_checked(store_bytes(sizes)))
        .unwrap_or((bytes, &[]))
}

/// The sizes that a store sheet says, whether in limits or not.
fn said_sizes(sheet: &[u8]) -> Option<Sizes> {
    let (principals, rest) = sheet.split_at_checked(FIRST_SIZE)?;
    let (slots, _) = rest.split_at_checked(SECOND_SIZE)?;
    Some(Sizes {
        principals: number(principals) as usize,
        slots: number(slots) as usize,
    })
}

/// "Numbers of several bytes have the lowest byte first." At most eight are
/// handed in.
pub(crate) fn number(bytes: &[u8]) -> u64 {
    let bytes = bytes.iter().rev();
    bytes.fold(0, |higher, byte| higher << 8 | u64::from(*byte))
}
