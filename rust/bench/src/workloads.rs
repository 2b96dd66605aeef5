//! What is timed. Every run passes its rule, and finishes or is spent.

use muntyzhap::code::*;
use muntyzhap::sheet::{output_bytes, MOST_BLOCKS, MOST_CODE, MOST_SLOTS};
use muntyzhap::{BuildError, Value, MOST_BUDGET};

use crate::code::{filled, filled_widely, forever};
use crate::journals::long_finished;
use crate::operations::long_step;
use crate::runners::MOST_ENTRIES;
use crate::sheets::{full_store, programme, store_of_one};

/// What a time is divided by.
#[derive(Debug, Clone, Copy, PartialEq, Eq)]
pub enum Unit {
    Step,
    Run,
}

#[derive(Clone)]
pub struct Workload {
    pub name: String,
    pub unit: Unit,
    pub store: Vec<u8>,
    pub programme: Vec<u8>,
    pub budget: u32,
    /// The budget of the second runner, and of the run that both must agree
    /// on: less where its steps may take long.
    pub second_budget: u32,
    /// In how many rounds it is timed: fewer where a run takes long.
    pub rounds: u32,
    /// The bytes of the output.
    pub output: usize,
    /// The entries of the journal: enough for any run, unless said otherwise.
    pub journal: usize,
}

/// How often a case is timed.
pub const ROUNDS: u32 = 25;

impl Workload {
    pub fn new(name: &str, values: &[Value], blocks: &[Command]) -> Result<Workload, BuildError> {
        let (store, programme) = (store_of_one(values)?, programme(blocks)?);
        Ok(Workload::of_sheets(name, store, programme))
    }

    pub fn of_sheets(name: &str, store: Vec<u8>, programme: Vec<u8>) -> Workload {
        Workload {
            name: name.to_string(),
            unit: Unit::Step,
            output: output_bytes(&store),
            store,
            programme,
            budget: MOST_BUDGET,
            second_budget: MOST_BUDGET,
            rounds: ROUNDS,
            journal: MOST_ENTRIES,
        }
    }
}

/// (a) to (d): those of which a ratio is asked.
pub fn of_speed() -> Result<Vec<Workload>, BuildError> {
    Ok(vec![
        assignments()?.forever("a  assignments in a loop")?,
        nested_ifs()?.forever("b  ifs nested 8 deep")?,
        chains_of_reads()?,
        short_blocks()?,
    ])
}

/// What a loop does in each round, over these slots.
pub struct Body {
    pub values: Vec<Value>,
    pub command: Command,
    /// The steps of a round, without the loop's own guard.
    pub steps: u32,
}

impl Body {
    pub fn forever(self, name: &str) -> Result<Workload, BuildError> {
        Workload::new(name, &self.values, &[forever(self.command)?])
    }
}

/// Two literals, and a copy of each.
pub fn four_assignments() -> Result<Command, BuildError> {
    sequence(&[
        assign(0, literal(Value::Integer(7))),
        assign(1, read(0)),
        assign(2, literal(Value::Integer(9))),
        assign(3, read(2)),
    ])
}

pub fn assignments() -> Result<Body, BuildError> {
    Ok(Body {
        values: vec![Value::Integer(0); 4],
        command: four_assignments()?,
        steps: 4,
    })
}

pub fn nested_ifs() -> Result<Body, BuildError> {
    const DEEP: u8 = 8;
    let innermost = assign(DEEP, literal(Value::Integer(1)));
    // Then-part and else-part are taken in turn.
    let command = (0..DEEP).rev().try_fold(innermost, |inner, slot| {
        if slot % 2 == 0 {
            if_command(read(slot), inner, skip())
        } else {
            if_command(read(slot), skip(), inner)
        }
    })?;
    let mut values: Vec<Value> = (0..DEEP).map(|slot| Value::Truth(slot % 2 == 0)).collect();
    values.push(Value::Integer(0));
    Ok(Body {
        values,
        command,
        steps: u32::from(DEEP) + 1,
    })
}

/// Slots from `first` on: views to be read in a row, and what the last read
/// gives.
pub fn chain(first: u8, last: Value) -> Vec<Value> {
    let mut values: Vec<Value> = (1..MOST_NESTED as u8)
        .map(|next| Value::ReadView(first + next))
        .collect();
    values.push(last);
    values
}

fn chains_of_reads() -> Result<Workload, BuildError> {
    let mut values = chain(0, Value::Truth(true));
    let slot = values.len() as u8;
    values.push(Value::Integer(0));
    let all = reads(MOST_NESTED, 0)?;
    let code = while_command(all.clone(), assign(slot, all))?;
    Workload::new("c  8 reads in a row", &values, &[code])
}

pub fn short_blocks() -> Result<Workload, BuildError> {
    let blocks = vec![four_assignments()?; MOST_BLOCKS];
    Workload::new("d  64 short blocks", &[Value::Integer(0); 4], &blocks)
}

/// (e): pairs of one loop, first with a short part that isn't taken, then with
/// a long one.
pub fn of_skipping() -> Result<Vec<[Workload; 2]>, BuildError> {
    const LONG: usize = 16_000;
    let (short, long) = (skip(), filled_widely(LONG)?);
    Ok(vec![
        [
            then_part_skipped("e  short then-part skipped", &short)?,
            then_part_skipped("e  long then-part skipped", &long)?,
        ],
        [
            else_part_skipped("e  short else-part skipped", &short)?,
            else_part_skipped("e  long else-part skipped", &long)?,
        ],
    ])
}

fn then_part_skipped(name: &str, part: &Command) -> Result<Workload, BuildError> {
    let taken = assign(1, literal(Value::Integer(1)));
    let body = if_command(read(0), part.clone(), taken)?;
    let values = [Value::Truth(false), Value::Integer(0)];
    Workload::new(name, &values, &[forever(body)?])
}

fn else_part_skipped(name: &str, part: &Command) -> Result<Workload, BuildError> {
    let taken = assign(1, literal(Value::Integer(1)));
    let body = if_command(read(0), taken, part.clone())?;
    let values = [Value::Truth(true), Value::Integer(0)];
    Workload::new(name, &values, &[forever(body)?])
}

/// (g): `while true do skip`, and the same loop with a body of many skips,
/// each arranged in another way.
pub fn of_skips() -> Result<(Workload, Vec<Workload>), BuildError> {
    let flat = sequence(&vec![sequence(&vec![skip(); 255])?; 63])?;
    let short = sequence(&[skip(), skip()])?;
    let pairs = sequence(&vec![sequence(&vec![short; 240])?; 17])?;
    let deep = (0..29).try_fold(skip(), |inner, _| sequence(&[inner, skip()]))?;
    let deeply = sequence(&vec![deep; 185])?;
    let one = Workload::new("g  a skip a step", &[], &[forever(skip())?])?;
    let many = vec![
        skips_for_a_step("g  16,065 skips a step", flat)?,
        skips_for_a_step("g  8,160 skips in pairs a step", pairs)?,
        skips_for_a_step("g  5,550 skips 32 deep a step", deeply)?,
    ];
    Ok((one, many))
}

/// (h): the steps that take longest, each in another way.
pub fn of_long_steps() -> Result<Vec<Workload>, BuildError> {
    Ok(vec![
        chains_on_both_sides()?,
        guards_that_jump()?,
        many_slots()?,
        long_step()?,
        long_finished()?,
    ])
}

/// (f): checking sheets as large as they may be. No step is allowed.
pub fn full_sheets() -> Result<Workload, BuildError> {
    let block = filled(MOST_CODE / MOST_BLOCKS)?;
    let programme = programme(&vec![block; MOST_BLOCKS])?;
    Ok(Workload {
        unit: Unit::Run,
        budget: 0,
        second_budget: 0,
        ..Workload::of_sheets("f  full sheets, budget 0", full_store()?, programme)
    })
}

/// Of the steps without operations the one that reads most: 8 reads for the
/// target and 8 for the value.
fn chains_on_both_sides() -> Result<Workload, BuildError> {
    let mut values = chain(0, Value::WriteView(2 * MOST_NESTED as u8));
    let second = values.len() as u8;
    values.extend(chain(second, Value::Integer(5)));
    values.push(Value::Integer(0));
    let each = assignment(reads(MOST_NESTED, 0)?, reads(MOST_NESTED, second)?);
    let body = forever(sequence(&vec![each; 64])?)?;
    Workload::new("h  8 reads, target and value", &values, &[body])
}

/// The row after a step that leads through most jumps: the end of 29 nested
/// then-parts.
fn guards_that_jump() -> Result<Workload, BuildError> {
    const DEEP: usize = 29;
    let innermost = assign(0, literal(Value::Integer(1)));
    let other = assign(0, literal(Value::Integer(2)));
    let body = (0..DEEP).try_fold(innermost, |inner, _| {
        if_command(literal(Value::Truth(true)), inner, other.clone())
    })?;
    Workload::new(
        "h  29 then-parts end at once",
        &[Value::Integer(0)],
        &[forever(body)?],
    )
}

/// 720 assignments, each of another slot, so that the tables' rows are not
/// near each other.
pub fn many_slots() -> Result<Workload, BuildError> {
    let values: Vec<Value> = (0..=u8::MAX)
        .map(|slot| Value::Integer(slot.into()))
        .collect();
    let each = |place: usize| {
        let slot = (place * 37 % MOST_SLOTS) as u8;
        assign(slot, read(255 - slot))
    };
    let parts = (0..3).map(|part| {
        let commands: Vec<Command> = (0..240).map(|place| each(240 * part + place)).collect();
        sequence(&commands)
    });
    let body = forever(sequence(&parts.collect::<Result<Vec<_>, _>>()?)?)?;
    Workload::new("h  720 assignments in a loop", &values, &[body])
}

/// A guard stands for a body full of skips, which are no steps. The second
/// runner enters each, so that it is given fewer steps.
fn skips_for_a_step(name: &str, body: Command) -> Result<Workload, BuildError> {
    Ok(Workload {
        second_budget: 400,
        ..Workload::new(name, &[], &[forever(body)?])?
    })
}
