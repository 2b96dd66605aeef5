//! Workloads of runs that finish, and so fill a journal.

use muntyzhap::code::*;
use muntyzhap::sheet::MOST_CODE;
use muntyzhap::{run, BuildError, Rule, Value, MOST_BUDGET};

use crate::operations::{few_by_second, long_assignments, one};
use crate::workloads::{assignments, chain, nested_ifs, short_blocks, Body, Workload};

/// A run that finishes, and the same run refused at its last step or write.
pub struct Ending {
    pub finished: Workload,
    /// By 17: its budget is one step short.
    pub spent: Workload,
    /// By 18: its journal is one entry short. None where nothing is written.
    pub full: Option<Workload>,
    /// The entries that the run fills.
    pub writes: usize,
}

impl Ending {
    pub fn of(finished: Workload) -> Ending {
        let (store, programme) = (&finished.store, &finished.programme);
        let played = run(store, programme, Rule::FullProvenance, finished.budget);
        let played = played.expect("a run that finishes");
        let (fewer, writes) = (played.steps - 1, played.journal.len());
        let spent = Workload {
            name: format!("{}, by 17", finished.name),
            budget: fewer,
            second_budget: fewer,
            ..finished.clone()
        };
        let full = writes.checked_sub(1).map(|entries| Workload {
            name: format!("{}, by 18", finished.name),
            journal: entries,
            ..finished.clone()
        });
        Ending {
            finished,
            spent,
            full,
            writes,
        }
    }
}

/// (l): loops that are counted, short blocks, and guards that write nothing.
pub fn of_journals() -> Result<Vec<Ending>, BuildError> {
    let blocks = Workload {
        name: "l  64 short blocks".to_string(),
        ..short_blocks()?
    };
    let all = vec![
        counted("l  assignments", assignments()?)?,
        counted("l  ifs nested 8 deep", nested_ifs()?)?,
        counted("l  8 reads in a row", reading()?)?,
        blocks,
        guards("l  guards alone")?,
    ];
    Ok(all.into_iter().map(Ending::of).collect())
}

/// The longest call: as many steps as there may be, most of them as long as a
/// step may be, and then a second time.
pub fn long_finished() -> Result<Workload, BuildError> {
    let workload = counted("h  255 operations, finished", long_assignments()?)?;
    Ok(few_by_second(workload))
}

/// while i < n do (the body; i := i + 1); last := 1
///
/// As many rounds as the budget allows; the last step is a write.
fn counted(name: &str, body: Body) -> Result<Workload, BuildError> {
    let rounds = (MOST_BUDGET - 2) / (body.steps + 2);
    let i = body.values.len() as u8;
    let (n, last) = (i + 1, i + 2);
    let round = sequence(&[body.command, assign(i, sum(read(i), one())?)])?;
    let looped = while_command(less_than(read(i), read(n))?, round)?;
    let counters = [0, rounds.into(), 0].map(Value::Integer);
    let values = [body.values.as_slice(), &counters].concat();
    Workload::new(name, &values, &[sequence(&[looped, assign(last, one())])?])
}

/// One assignment of what 8 reads in a row give.
fn reading() -> Result<Body, BuildError> {
    let mut values = chain(0, Value::Integer(5));
    let slot = values.len() as u8;
    values.push(Value::Integer(0));
    Ok(Body {
        values,
        command: assign(slot, reads(MOST_NESTED, 0)?),
        steps: 1,
    })
}

/// As many guards as a programme can have, and no assignment: nothing is left
/// for a second pass.
fn guards(name: &str) -> Result<Workload, BuildError> {
    const PARTS: usize = 5;
    let each = if_command(literal(Value::Truth(true)), skip(), skip())?;
    let many = MOST_CODE / PARTS / each.bytes().len() - 1;
    let part = sequence(&vec![each; many])?;
    Workload::new(name, &[], &[sequence(&vec![part; PARTS])?])
}
