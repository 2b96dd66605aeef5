//! Words that many reasons share.

pub(crate) use model::count;
use model::{Names, Value};
use muntyzhap::sheet::MOST_SLOTS;

/// A byte as README writes bytes.
pub(crate) fn hex(byte: u8) -> String {
    format!("{byte:02X}")
}

/// How many there are, and their numbers: `there are 2 slots, 0 and 1`.
pub(crate) fn there_are(number: usize, of: &str) -> String {
    match number {
        0 => format!("there are no {of}s"),
        1 => format!("there is 1 {of}, 0"),
        2 => format!("there are 2 {of}s, 0 and 1"),
        _ => format!("there are {number} {of}s, 0 to {}", number - 1),
    }
}

/// A block by its number, and by its name if it has one.
pub(crate) fn block(number: usize, names: &Names) -> String {
    match names.block(number) {
        Some(name) => format!("block {number} ({name})"),
        None => format!("block {number}"),
    }
}

/// The value that a kind and a payload are among so many slots, or what is wrong
/// with them. All eight bytes of a payload count.
pub(crate) fn value(kind: u8, payload: u64, slots: usize) -> Result<Value, String> {
    let is_there = |value: &Value| match value {
        Value::ReadView(slot) | Value::WriteView(slot) => usize::from(*slot) < slots,
        Value::Integer(_) | Value::Truth(_) => true,
    };
    let value = Value::from_parts(kind, payload).filter(is_there);
    value.ok_or_else(|| ill_formed(kind, payload, slots))
}

fn ill_formed(kind: u8, payload: u64, slots: usize) -> String {
    let viewed = |view: &str| {
        format!(
            "a {view} of slot {payload}, and {}",
            there_are(slots, "slot")
        )
    };
    match kind {
        Value::TRUTH => {
            format!("a truth value with payload {payload}; it is 0 for false or 1 for true")
        }
        Value::READ_VIEW => viewed("read view"),
        Value::WRITE_VIEW => viewed("write view"),
        _ => unknown_kind(kind),
    }
}

/// Whether a value can have this kind byte.
pub(crate) fn is_kind(kind: u8) -> bool {
    Value::from_parts(kind, 0).is_some()
}

pub(crate) fn unknown_kind(kind: u8) -> String {
    format!(
        "a value of kind {}; kinds are {} to {}",
        hex(kind),
        hex(Value::INTEGER),
        hex(Value::WRITE_VIEW)
    )
}

/// No store has more slots, and no view names one past them.
pub(crate) fn slots_in_limits(slots: usize) -> usize {
    slots.min(MOST_SLOTS)
}
