//! Long work in slices. The laboratory's curve has drifted, and its block works
//! out anew, row by row, what the rows add up to. After each slice the program
//! says how many steps of the budget are done. After two slices it stops, and
//! saves a checkpoint to the file that it is given; run again, it takes that up.
//! The file has the pause sheet and then the output, and one that the example in C
//! has saved will do as well.

mod laboratory;

use std::error::Error;
use std::path::Path;
use std::process::ExitCode;
use std::{env, fs, io};

use laboratory::{print_slots, LABORATORY, ORDER};
use muntyzhap::code::{assign, less_than, literal, read, sequence, sum, while_command};
use muntyzhap::code::{Command, Expression};
use muntyzhap::sheet::{programme_sheet, store_sheet, Block, Slot};
use muntyzhap::{carry_on, start, BuildError, Checkpoint, Integer, Outcome, Refusal, Rule, Value};

/// The laboratory's: by how much each row has drifted, the row that is next, and
/// what the rows add up to.
const DRIFT: u8 = 0;
const ROW: u8 = 1;
const TOTAL: u8 = 2;
const ROWS: Integer = 100;

/// The steps of all slices and of one, and how many slices until it stops.
const BUDGET: u32 = 400;
const SLICE: u32 = 100;
const SLICES: usize = 2;

fn store() -> Result<Vec<u8>, BuildError> {
    let slots = [
        Slot::new(LABORATORY, Value::Integer(-3))?,
        Slot::new(LABORATORY, Value::Integer(0))?,
        Slot::new(LABORATORY, Value::Integer(5_000_000))?,
    ];
    store_sheet(&ORDER, &slots)
}

fn integer(integer: Integer) -> Expression {
    literal(Value::Integer(integer))
}

/// while row < rows do (total := total + drift; row := row + 1)
fn adding() -> Result<Command, BuildError> {
    let added = assign(TOTAL, sum(read(TOTAL), read(DRIFT))?);
    let next = assign(ROW, sum(read(ROW), integer(1))?);
    while_command(
        less_than(read(ROW), integer(ROWS))?,
        sequence(&[added, next])?,
    )
}

fn programme() -> Result<Vec<u8>, BuildError> {
    programme_sheet(&[Block::new(LABORATORY, adding()?)?])
}

/// The checkpoint that was saved, if there is one.
fn load(file: &Path) -> Result<Option<Checkpoint>, Box<dyn Error>> {
    match fs::read(file) {
        Ok(bytes) => match Checkpoint::from_bytes(&bytes) {
            None => Err(format!("{} is not a checkpoint", file.display()).into()),
            saved => Ok(saved),
        },
        Err(error) if error.kind() == io::ErrorKind::NotFound => Ok(None),
        Err(error) => Err(error.into()),
    }
}

/// A slice, from a checkpoint or from the start.
fn slice(store: &[u8], programme: &[u8], from: Option<&Checkpoint>) -> Result<Outcome, Refusal> {
    let done = from.map_or(0, Checkpoint::steps);
    let budget = done.saturating_add(SLICE).min(BUDGET);
    match from {
        None => start(store, programme, Rule::FullProvenance, budget),
        Some(from) => carry_on(store, programme, Rule::FullProvenance, budget, from),
    }
}

fn work(file: &Path) -> Result<(), Box<dyn Error>> {
    let (store, programme) = (store()?, programme()?);
    let mut last = load(file)?;
    match &last {
        None => println!("started"),
        Some(saved) => println!("taken up after {} of {BUDGET} steps", saved.steps()),
    }
    let mut stopped = None;
    for _ in 0..SLICES {
        match slice(&store, &programme, last.as_ref())? {
            Outcome::Finished {
                blocks,
                steps,
                slots,
            } => {
                println!("finished: {blocks} blocks, {steps} steps");
                print_slots(&slots);
                // There is none where the work was never stopped.
                let _ = fs::remove_file(file);
                return Ok(());
            }
            Outcome::Paused { place, checkpoint } => {
                println!("{} of {BUDGET} steps", checkpoint.steps());
                stopped = Some(place);
                last = Some(checkpoint);
            }
        }
    }
    if let (Some(place), Some(last)) = (stopped, last) {
        fs::write(file, last.to_bytes())?;
        println!("stopped in {place}");
        print_slots(&last.slots(&store).ok_or("not of this store")?);
    }
    Ok(())
}

fn main() -> ExitCode {
    let Some(file) = env::args_os().nth(1) else {
        eprintln!("name a file for the checkpoint");
        return ExitCode::FAILURE;
    };
    match work(file.as_ref()) {
        Ok(()) => ExitCode::SUCCESS,
        Err(error) => {
            eprintln!("{error}");
            ExitCode::FAILURE
        }
    }
}
