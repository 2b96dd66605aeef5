//! Numbers and parts taken from bytes.

/// "Numbers of several bytes have the lowest byte first." At most eight bytes
/// are handed in.
pub(crate) fn number(bytes: &[u8]) -> u64 {
    bytes
        .iter()
        .rev()
        .fold(0, |higher, byte| (higher << 8) | u64::from(*byte))
}

/// Takes `count` bytes off the front of `rest`, or nothing if it has fewer.
pub(crate) fn take<'a>(rest: &mut &'a [u8], count: usize) -> Option<&'a [u8]> {
    let (front, back) = rest.split_at_checked(count)?;
    *rest = back;
    Some(front)
}
