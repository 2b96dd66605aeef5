//! Workloads of assignments that pass by the owner or by the floor.

use muntyzhap::code::{read, while_command};
use muntyzhap::sheet::{programme_sheet, Block};
use muntyzhap::{BuildError, Value};

use crate::sheets::{store_of_two, HIGH, LOW};
use crate::workloads::{four_assignments, Workload};

/// The slots that the assignments write, all of them the higher principal's.
const WRITTEN: [(u8, Value); 4] = [(HIGH, Value::Integer(0)); 4];
/// The slot after them, which the loop's guard reads.
const GUARD: u8 = WRITTEN.len() as u8;

/// (k): a loop of assignments in a block that is not endorsed, where the labels
/// stand at or above the owner; then the same loop over a guard of the lower
/// principal's, in a block endorsed down to that one. There under rule 3 the
/// branch has the lower principal for its label, so that no assignment passes by
/// the owner and each does by the floor.
pub fn of_floors() -> Result<[Workload; 2], BuildError> {
    let code = || while_command(read(GUARD), four_assignments()?);
    let (plain, endorsed) = (
        Block::new(HIGH, code()?)?,
        Block::endorsed(HIGH, LOW, code()?)?,
    );
    Ok([
        assignments("k  assignments, by the owner", HIGH, plain)?,
        assignments("k  assignments, by the floor", LOW, endorsed)?,
    ])
}

/// The block alone, over a store where the guard is this principal's.
fn assignments(name: &str, guard: u8, block: Block) -> Result<Workload, BuildError> {
    let mut slots = WRITTEN.to_vec();
    slots.push((guard, Value::Truth(true)));
    let (store, programme) = (store_of_two(&slots)?, programme_sheet(&[block])?);
    Ok(Workload::of_sheets(name, store, programme))
}
