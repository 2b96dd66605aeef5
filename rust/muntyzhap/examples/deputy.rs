//! A confused deputy. The customer says where its result shall go and names a
//! slot of the laboratory's. The laboratory's block may write there: under
//! access control it does; under full provenance, the default rule, it is
//! refused by 16.
//!
//! Then the laboratory has to take the customer's result into its curve. Full
//! provenance refuses that by 16 as well, unless the block is endorsed down to
//! this customer. Even so it may take nothing from beside or below the customer:
//! the other customer's result is refused, and so is the sum of both, whose label
//! is the bottom.

mod laboratory;
mod playing;

use laboratory::{CUSTOMER, LABORATORY, ORDER, OTHER_CUSTOMER};
use muntyzhap::code::{assign, assignment, literal, read, sequence, sum, Command};
use muntyzhap::sheet::{programme_sheet, store_sheet, Block, Slot};
use muntyzhap::{BuildError, Integer, Rule, Value};
use playing::play;

/// The customer's: where its result shall go, and its result.
const PLACE: u8 = 0;
const RESULT: u8 = 1;
/// The laboratory's: a row of its curve, and whether it has delivered.
const CURVE: u8 = 2;
const DELIVERED: u8 = 3;
/// The other customer's: its result.
const OTHER_RESULT: u8 = 4;

fn store() -> Result<Vec<u8>, BuildError> {
    let slots = [
        Slot::new(CUSTOMER, Value::WriteView(RESULT))?,
        Slot::new(CUSTOMER, Value::Integer(0))?,
        Slot::new(LABORATORY, Value::Integer(50_000))?,
        Slot::new(LABORATORY, Value::Truth(false))?,
        Slot::new(OTHER_CUSTOMER, Value::Integer(0))?,
    ];
    store_sheet(&ORDER, &slots)
}

fn delivery() -> Result<Vec<u8>, BuildError> {
    // The customer names the curve's row as the place for its result.
    let named = assign(PLACE, literal(Value::WriteView(CURVE)));
    // The laboratory notes the delivery and writes where the customer says.
    let noted = assign(DELIVERED, literal(Value::Truth(true)));
    let delivered = assignment(read(PLACE), literal(Value::Integer(42)));
    programme_sheet(&[
        Block::new(CUSTOMER, named)?,
        Block::new(LABORATORY, sequence(&[noted, delivered])?)?,
    ])
}

/// A customer's result, in a slot of its own.
fn measured(slot: u8, result: Integer) -> Command {
    assign(slot, literal(Value::Integer(result)))
}

/// Both customers measure; then the laboratory's block runs.
fn taking(laboratory: Block) -> Result<Vec<u8>, BuildError> {
    programme_sheet(&[
        Block::new(CUSTOMER, measured(RESULT, 50_120))?,
        Block::new(OTHER_CUSTOMER, measured(OTHER_RESULT, 49_870))?,
        laboratory,
    ])
}

/// The laboratory's blocks that write to its curve, and what each does.
fn takers() -> Result<[(&'static str, Block); 4], BuildError> {
    let plain = |value| Block::new(LABORATORY, assign(CURVE, value));
    let endorsed = |value| Block::endorsed(LABORATORY, CUSTOMER, assign(CURVE, value));
    Ok([
        (
            "the laboratory takes the customer's result, not endorsed",
            plain(read(RESULT))?,
        ),
        (
            "the customer's result, endorsed down to the customer",
            endorsed(read(RESULT))?,
        ),
        (
            "the other customer's result, endorsed down to the customer",
            endorsed(read(OTHER_RESULT))?,
        ),
        (
            "the sum of both results, endorsed down to the customer",
            endorsed(sum(read(RESULT), read(OTHER_RESULT))?)?,
        ),
    ])
}

fn main() -> Result<(), BuildError> {
    let (store, delivery) = (store()?, delivery()?);
    println!("the laboratory writes where the customer says");
    for rule in [Rule::AccessControl, Rule::FullProvenance, Rule::Default] {
        play(&store, &delivery, rule);
    }
    for (said, laboratory) in takers()? {
        println!("{said}");
        play(&store, &taking(laboratory)?, Rule::FullProvenance);
    }
    Ok(())
}
