//! What a file may have been meant as, where it is no good as what it was given.

use std::path::Path;

use inspect::{split, Sizes};
use model::{count, Block, Code, Floor, Names, Programme};
use muntyzhap::sheet::{MOST_PRINCIPALS, MOST_SLOTS};

use crate::blocks;
use crate::files::STANDARD_INPUT_NAME;
use crate::input::not_text;

/// The bytes before the sheets in the printing program's input: "the rule byte, the
/// budget in 4 bytes" (README, `Formats`).
const RULE_AND_BUDGET: usize = 1 + size_of::<u32>();

const MOST: Sizes = Sizes {
    principals: MOST_PRINCIPALS,
    slots: MOST_SLOTS,
};

/// The sizes of a good store sheet.
fn store_sizes(sheet: &[u8]) -> Option<Sizes> {
    let read = inspect::store(sheet, &Names::default());
    read.sizes.filter(|_| read.refused.is_none())
}

fn is_programme(sheet: &[u8], sizes: Sizes) -> bool {
    inspect::programme_model(sheet, sizes.principals, sizes.slots).is_some()
}

/// Whether some bytes start with a good store sheet, or are a good programme sheet.
pub fn are_sheets(bytes: &[u8]) -> bool {
    store_sizes(split(bytes).0).is_some() || is_programme(bytes, MOST)
}

/// Of two sheets that were given as store and programme: whether the other way
/// round they are good.
pub fn swapped(store: (&str, &[u8]), programme: (&str, &[u8])) -> Option<String> {
    let ((store_name, store), (programme_name, programme)) = (store, programme);
    if store_sizes(store).is_some() {
        return None;
    }
    let sizes = store_sizes(programme)?;
    is_programme(store, sizes).then(|| {
        format!(
            "{programme_name} is a good store sheet, and {store_name} a good programme sheet for it: \
             give the store first"
        )
    })
}

/// Of a file that starts with no good store sheet: whether one stands where the
/// printing program's input has it.
pub fn printing_input(name: &str, bytes: &[u8]) -> Option<String> {
    if store_sizes(split(bytes).0).is_some() {
        return None;
    }
    let (first, sheets) = bytes.split_at_checked(RULE_AND_BUDGET)?;
    store_sizes(split(sheets).0)?;
    let (rule, budget) = first.split_first()?;
    let budget = u32::from_le_bytes(budget.try_into().ok()?);
    let tail = tail(name, RULE_AND_BUDGET);
    Some(format!(
        "it looks like the printing program's input, where {RULE_AND_BUDGET} bytes of rule and budget come \
         first (here {rule} and {budget}): `{tail}` leaves the sheets"
    ))
}

/// Of a file that was given as a block's code, and is no good code for so many
/// slots: whether it is a text or sheets, and how to come to the code.
pub fn no_code(name: &str, bytes: &[u8], slots: usize) -> Option<String> {
    if is_code(bytes, slots) {
        return None;
    }
    if !bytes.is_empty() && not_text(bytes).is_none() {
        let file = if name == STANDARD_INPUT_NAME {
            "-"
        } else {
            name
        };
        let out = code_file(name);
        return Some(format!(
            "{name} is a text: `muntyzhap asm {file} --only code -o {out}` makes its code"
        ));
    }
    let (store, after) = split(bytes);
    let sizes = store_sizes(store).filter(|sizes| is_programme(after, *sizes));
    let (what, start, programme) = match sizes {
        Some(_) => ("a store sheet and a programme sheet", store.len(), after),
        None if is_programme(bytes, MOST) => ("a programme sheet", 0, bytes),
        None => return None,
    };
    let starts = blocks::starts(programme);
    Some(match starts[..] {
        [code] => {
            let tail = tail(name, start + code);
            format!("{name} is {what}: `{tail}` leaves its code")
        }
        _ => format!(
            "{name} is {what} of {}: give the code of one block alone",
            count(starts.len(), "block")
        ),
    })
}

/// The command that leaves out the first bytes of a file.
fn tail(name: &str, bytes: usize) -> String {
    let from = bytes + 1;
    match name {
        STANDARD_INPUT_NAME => format!("tail -c +{from}"),
        _ => format!("tail -c +{from} {name}"),
    }
}

fn is_code(bytes: &[u8], slots: usize) -> bool {
    let block = Block {
        region: 0,
        floor: Floor::Ignored(0),
        code: Code::Raw(bytes.to_vec()),
    };
    let blocks = vec![block];
    let sheet = notation::programme_bytes(&Programme { blocks });
    let sizes = Sizes { slots, ..MOST };
    sheet.is_ok_and(|sheet| is_programme(&sheet, sizes))
}

/// A name for the code of a text: that of the text with another ending.
fn code_file(name: &str) -> String {
    match name {
        STANDARD_INPUT_NAME => "code.bin".to_string(),
        _ if name.ends_with(".bin") => format!("{name}.bin"),
        _ => Path::new(name)
            .with_extension("bin")
            .to_string_lossy()
            .into_owned(),
    }
}
