//! Corrections computed in blocks. The laboratory's block takes its offset from
//! the age that the customer's block measured, and writes the corrected age to a
//! slot of the customer's: full provenance lets it.
//!
//! A second programme is a confused deputy: the laboratory's block moves its own
//! offset by what the customer measured. A sum's label is the meet of both its
//! operands', so it is the customer's, though one operand is the laboratory's:
//! under access control the customer moves the offset; full provenance refuses
//! it by 16.

mod laboratory;
mod playing;

use laboratory::{CUSTOMER, LABORATORY, ORDER};
use muntyzhap::code::{
    assign, difference, if_command, less_than, literal, read, sum, Command, Expression,
};
use muntyzhap::sheet::{programme_sheet, store_sheet, Block, Slot};
use muntyzhap::{BuildError, Integer, Rule, Value};
use playing::play;

/// The customer's: an age in years, as measured and corrected.
const MEASURED: u8 = 0;
const CORRECTED: u8 = 1;
/// The laboratory's: by how much its ages are too high.
const OFFSET: u8 = 2;
/// What the sample should have measured.
const EXPECTED: Integer = 4300;

fn store() -> Result<Vec<u8>, BuildError> {
    let slots = [
        Slot::new(CUSTOMER, Value::Integer(0))?,
        Slot::new(CUSTOMER, Value::Integer(0))?,
        Slot::new(LABORATORY, Value::Integer(405))?,
    ];
    store_sheet(&ORDER, &slots)
}

fn integer(integer: Integer) -> Expression {
    literal(Value::Integer(integer))
}

/// if measured < offset then corrected := 0 else corrected := measured - offset
fn corrected() -> Result<Command, BuildError> {
    let younger = less_than(read(MEASURED), read(OFFSET))?;
    let age = difference(read(MEASURED), read(OFFSET))?;
    if_command(
        younger,
        assign(CORRECTED, integer(0)),
        assign(CORRECTED, age),
    )
}

/// offset := offset + (measured - expected)
fn moved() -> Result<Command, BuildError> {
    let error = difference(read(MEASURED), integer(EXPECTED))?;
    Ok(assign(OFFSET, sum(read(OFFSET), error)?))
}

/// The customer's block measures; then the laboratory's does this.
fn programme(laboratory: Command) -> Result<Vec<u8>, BuildError> {
    programme_sheet(&[
        Block::new(CUSTOMER, assign(MEASURED, integer(4372)))?,
        Block::new(LABORATORY, laboratory)?,
    ])
}

fn main() -> Result<(), BuildError> {
    let store = store()?;
    println!("the customer's age is corrected");
    play(&store, &programme(corrected()?)?, Rule::FullProvenance);
    println!("the laboratory's offset is moved by the customer's age");
    let programme = programme(moved()?)?;
    play(&store, &programme, Rule::AccessControl);
    play(&store, &programme, Rule::FullProvenance);
    Ok(())
}
