//! The laboratory's reporter: runs a customer's block and then the
//! laboratory's, reads the end store, and says from the journal who wrote the
//! oldest row of the laboratory's curve.
//!
//! The customer measures a ratio, and names that row as the place where its
//! report shall go. The laboratory's block copies the ratio to where the customer
//! says. It sends rule 0, access control, and may write there: without the
//! journal the row would only hold another number. Under the default rule, full
//! provenance, it would be refused by 16.

mod laboratory;

use std::error::Error;

use laboratory::{print_slots, CUSTOMER, LABORATORY, ORDER};
use muntyzhap::code::{assign, assignment, literal, read, sequence};
use muntyzhap::sheet::{programme_sheet, store_sheet, Block, Slot};
use muntyzhap::{run, BuildError, Entry, Integer, Rule, Value};

/// The customer's: its sample, and where its report shall go.
const SAMPLE: u8 = 0;
const PLACE: u8 = 1;
/// The laboratory's: the report, and the oldest row of its curve.
const REPORT: u8 = 2;
const OLDEST_ROW: u8 = 3;
/// A run may make as many writes.
const BUDGET: u32 = 10;

/// The sample's ratio, 0.815042637915, scaled by 10 to the 12th.
const RATIO: Integer = 815_042_637_915;
/// What stands for a ratio that is not measured.
const NOT_MEASURED: Integer = Integer::MIN;

fn store() -> Result<Vec<u8>, BuildError> {
    let slots = [
        Slot::new(CUSTOMER, Value::Integer(NOT_MEASURED))?,
        Slot::new(CUSTOMER, Value::WriteView(REPORT))?,
        Slot::new(LABORATORY, Value::Integer(NOT_MEASURED))?,
        Slot::new(LABORATORY, Value::Integer(50_000))?,
    ];
    store_sheet(&ORDER, &slots)
}

fn blocks() -> Result<[Block; 2], BuildError> {
    let measured = assign(SAMPLE, literal(Value::Integer(RATIO)));
    let named = assign(PLACE, literal(Value::WriteView(OLDEST_ROW)));
    let reported = assignment(read(PLACE), read(SAMPLE));
    Ok([
        Block::new(CUSTOMER, sequence(&[measured, named])?)?,
        Block::new(LABORATORY, reported)?,
    ])
}

/// Prints a line for each time that the curve's oldest row was written.
fn print_writers(blocks: &[Block], journal: &[Entry]) {
    for entry in journal.iter().filter(|entry| entry.slot == OLDEST_ROW) {
        let (block, old, new) = (entry.place.block, entry.old, entry.new);
        let region = blocks[block].region();
        println!(
            "the curve's oldest row was written by block {block}, region {region}: {new} over {old}"
        );
    }
}

fn main() -> Result<(), Box<dyn Error>> {
    let (store, blocks) = (store()?, blocks()?);
    let programme = programme_sheet(&blocks)?;
    let finished = run(&store, &programme, Rule::AccessControl, BUDGET)?;
    println!(
        "finished: {} blocks, {} steps",
        finished.blocks, finished.steps
    );
    print_slots(&finished.slots);
    print_writers(&blocks, &finished.journal);
    println!("{}", finished.report().by_slot());
    Ok(())
}
