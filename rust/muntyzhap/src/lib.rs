//! The proved runner for Rust programs.
//!
//! It links the static library that `make static` makes (without it a
//! program can be checked, but not built) and wraps its seven calls:
//! [`check_store`], [`check_table`], [`check_programme`] and [`run`], for runs that
//! can be paused [`start`] and [`carry_on`], and [`version`]. A refusal is a
//! [`Refusal`], which says in words what was refused and, where the document gives
//! one, its place.
//!
//! Every length is right by the time the library sees it: a slice is passed
//! with its own length, and whether that is what a sheet's sizes ask for, the
//! library judges itself (1 and 6).
//!
//! ```
//! use muntyzhap::code::{assign, literal, read};
//! use muntyzhap::sheet::{programme_sheet, store_sheet, Block, Slot};
//! use muntyzhap::{run, Rule, Value};
//!
//! # fn main() -> Result<(), Box<dyn std::error::Error>> {
//! // Principal 1, the laboratory, stands above principal 0, its customer.
//! let (customer, laboratory) = (0, 1);
//! let slots = [
//!     Slot::new(customer, Value::Integer(5))?,
//!     Slot::new(laboratory, Value::Integer(7))?,
//! ];
//! let store = store_sheet(&[0b01, 0b11], &slots)?;
//! let programme = programme_sheet(&[
//!     Block::new(customer, assign(0, literal(Value::Integer(42))))?,
//!     // Endorsed down to the customer: it may use what comes from there.
//!     Block::endorsed(laboratory, customer, assign(1, read(0)))?,
//! ])?;
//! // At most 1000 steps.
//! match run(&store, &programme, Rule::FullProvenance, 1000) {
//!     Ok(finished) => {
//!         for (number, slot) in finished.slots.iter().enumerate() {
//!             println!("slot {number}: {}, writes {}", slot.value(), slot.writes());
//!         }
//!         println!("{}", finished.report());
//!     }
//!     Err(refusal) => println!("{refusal}"),
//! }
//! # let finished = run(&store, &programme, Rule::FullProvenance, 1000)?;
//! # assert_eq!(finished.slots[1].value(), Value::Integer(42));
//! # assert_eq!(
//! #     finished.report().to_string(),
//! #     "entry 0: block 0 at offset 0 wrote integer 42 to slot 0 over integer 5\n\
//! #      entry 1: block 1 at offset 0 wrote integer 42 to slot 1 over integer 7"
//! # );
//! # Ok(())
//! # }
//! ```
//!
//! It prints
//!
//! ```text
//! slot 0: integer 42, writes 1
//! slot 1: integer 42, writes 1
//! entry 0: block 0 at offset 0 wrote integer 42 to slot 0 over integer 5
//! entry 1: block 1 at offset 0 wrote integer 42 to slot 1 over integer 7
//! ```
//!
//! "The caller lends a journal, a slice of entries, and each assignment fills the
//! next" (document 02, N7). [`run`] lends one that is long enough for its budget,
//! or as long as its [`Limits`] say, and gives it back as [`Finished::journal`],
//! an [`Entry`] for each assignment: which block wrote what to which slot, and
//! what that held before.
//!
//! An endorsed block has a floor, the principal down to which it is endorsed:
//! "an endorsed assignment passes under rules 2 and 3 when the meet of all labels
//! judged stands at or above the slot's owner, or at or above the floor" (document
//! 02, N6). Without the endorsement the run above is refused by 16, and so it is
//! with the laboratory as the floor. The isolation of rule 3 from an adversary
//! holds where no endorsed block outside the adversary's reach has a floor at or
//! below the adversary. With the customer as the adversary it says nothing of the
//! programme above.
//!
//! [`code`] and [`sheet`] write sheets and read what a run leaves. They are a
//! convenience and not proved. What no sheet can hold is a [`BuildError`] where
//! it is made; whatever bytes they make, the library judges. [`raw`] has the same
//! seven calls with the numbers as the library gives them, and with output,
//! journal and pause buffer lent by the caller.
//!
//! # Long work in slices
//!
//! [`start`] and [`carry_on`] run in stretches. Where [`run`] is refused by 17,
//! these give a [`Checkpoint`]: values and counts so far, and where the run
//! stands. The budget includes the steps so far, so it grows from slice to slice.
//!
//! ```
//! # use muntyzhap::code::{assign, less_than, literal, read, sum, while_command};
//! # use muntyzhap::sheet::{programme_sheet, store_sheet, Block, Slot};
//! # use muntyzhap::Value;
//! # fn main() -> Result<(), Box<dyn std::error::Error>> {
//! # let integer = |integer| literal(Value::Integer(integer));
//! # let store = store_sheet(&[1], &[Slot::new(0, Value::Integer(0))?])?;
//! # let more = assign(0, sum(read(0), integer(1))?);
//! # let counting = while_command(less_than(read(0), integer(120))?, more)?;
//! # let programme = programme_sheet(&[Block::new(0, counting)?])?;
//! # let file = format!("muntyzhap-{}.checkpoint", std::process::id());
//! # let file = std::env::temp_dir().join(file);
//! # let mut told = vec![];
//! use muntyzhap::{carry_on, start, Checkpoint, Outcome, Rule};
//! use std::fs;
//!
//! // At most 1000 steps, 100 in a slice.
//! let (budget, slice, rule) = (1000, 100, Rule::FullProvenance);
//! let mut outcome = start(&store, &programme, rule, slice)?;
//! while let Outcome::Paused { checkpoint, .. } = &outcome {
//!     let steps = checkpoint.steps();
//!     println!("{steps} of {budget} steps");
//! #     told.push(steps);
//!     // From here on the process may be stopped.
//!     fs::write(&file, checkpoint.to_bytes())?;
//!     if steps >= budget {
//!         break;
//!     }
//!     outcome = carry_on(&store, &programme, rule, budget.min(steps + slice), checkpoint)?;
//! }
//! # let ended = outcome;
//!
//! // A later process takes it up, here with the whole budget.
//! let kept = Checkpoint::from_bytes(&fs::read(&file)?).ok_or("not a checkpoint")?;
//! let outcome = carry_on(&store, &programme, rule, budget, &kept)?;
//! # fs::remove_file(&file)?;
//! # assert_eq!(outcome, ended);
//! # assert_eq!(told, [100, 200]);
//! # let Outcome::Finished { blocks, steps, slots } = outcome else {
//! #     panic!("{outcome:?}");
//! # };
//! # assert_eq!((blocks, steps), (1, 241));
//! # assert_eq!((slots[0].value(), slots[0].writes()), (Value::Integer(120), 120));
//! # Ok(())
//! # }
//! ```
//!
//! Carried on under one rule, a run ends as if it had never paused. The rule may
//! change between two stretches: the next step is the first that the new one
//! judges.

#![deny(unsafe_code)]
#![warn(missing_docs)]

mod build_error;
mod checkpoint;
pub mod code;
mod finished;
mod journal;
mod library;
mod limits;
#[cfg(library_missing)]
#[doc(hidden)]
pub mod missing;
mod outcome;
mod refusal;
mod report;
mod rule;
pub mod sheet;
mod value;
mod version;

pub use crate::build_error::BuildError;
pub use crate::checkpoint::Checkpoint;
pub use crate::finished::Finished;
pub use crate::journal::Entry;
pub use crate::limits::{Limits, MOST_BUDGET};
pub use crate::outcome::Outcome;
pub use crate::refusal::{Place, Refusal, Stop};
pub use crate::report::Report;
pub use crate::rule::Rule;
pub use crate::value::{Integer, Value};
pub use crate::version::Version;

/// The library's calls with numbers for answers, as document 01 numbers them.
pub mod raw {
    pub use crate::library::{
        carry_on, check_programme, check_store, check_table, run, start, version, Answer, Entry,
        Value,
    };
}

/// The version of the library that is linked. It is this crate's own.
pub fn version() -> Version {
    Version::from_number(raw::version())
}

/// Checks a store sheet: refused by 1 to 5.
pub fn check_store(sheet: &[u8]) -> Result<(), Refusal> {
    judged(raw::Answer::only(raw::check_store(sheet)))
}

/// Checks a table sheet, a store sheet that ends after its owners: refused by
/// 1 to 4.
pub fn check_table(sheet: &[u8]) -> Result<(), Refusal> {
    judged(raw::Answer::only(raw::check_table(sheet)))
}

/// Checks a programme sheet for a store of so many principals and slots:
/// refused by 6 to 10.
pub fn check_programme(sheet: &[u8], principals: usize, slots: usize) -> Result<(), Refusal> {
    judged(raw::check_programme(sheet, principals, slots))
}

/// Checks both sheets and the arguments, runs the blocks in order and, if they
/// finish, gives what they leave. The limits are a budget of steps alone, or
/// [`Limits`] with the journal's length too.
///
/// # Errors
/// Any [`Refusal`] but 12: the output is made as long as the store asks.
///
/// # Panics
/// If the library leaves what no run leaves. The proved one does not.
pub fn run(
    store: &[u8],
    programme: &[u8],
    rule: Rule,
    limits: impl Into<Limits>,
) -> Result<Finished, Refusal> {
    let limits = limits.into();
    let mut out = vec![0; sheet::output_bytes(store)];
    let mut journal = library::empty_journal(limits.entries());
    let (rule, budget) = (rule.number(), limits.steps());
    let answer = raw::run(store, programme, rule, budget, &mut out, &mut journal);
    judged(answer)?;
    let finished = Finished::read(answer, store, &out, &journal);
    Ok(finished.expect("the library left what no run leaves"))
}

/// The first stretch of a run that can be paused: checks both sheets and the
/// arguments and runs the blocks in order, until they finish or the budget is
/// spent. No journal is kept.
///
/// # Errors
/// Any [`Refusal`] but 12, 17, which is [`Outcome::Paused`], 18 and 19.
///
/// # Panics
/// If the library leaves what no run leaves. The proved one does not.
pub fn start(store: &[u8], programme: &[u8], rule: Rule, budget: u32) -> Result<Outcome, Refusal> {
    let mut left = Checkpoint::room_for(store);
    let (out, pause) = (&mut left.out, left.pause.as_mut_slice());
    let answer = raw::start(store, programme, rule.number(), budget, out, pause);
    Outcome::read(answer, store, left)
}

/// The next stretch of a run over the same store and programme, from where the
/// stretch before was paused. The budget includes the steps so far: one at or
/// below them gives the same checkpoint again. The store sheet's values are
/// judged again (5), and then not used. The rule may be another: the next step is
/// the first that it judges, with the labels that the branches got under the
/// old one.
///
/// Under one rule, with a budget not below the steps so far, what comes of it is
/// what a [`start`] with that budget comes to.
///
/// # Errors
/// Any [`Refusal`] but 17, which is [`Outcome::Paused`], and 18:
/// [`Refusal::OutputLength`] if the checkpoint is of a store with more slots or
/// fewer, [`Refusal::Checkpoint`] if it is not good.
///
/// # Panics
/// If the library leaves what no run leaves. The proved one does not.
pub fn carry_on(
    store: &[u8],
    programme: &[u8],
    rule: Rule,
    budget: u32,
    checkpoint: &Checkpoint,
) -> Result<Outcome, Refusal> {
    let mut left = Checkpoint::room_for(store);
    let answer = raw::carry_on(
        store,
        programme,
        rule.number(),
        budget,
        checkpoint.output(),
        checkpoint.pause_sheet(),
        &mut left.out,
        left.pause.as_mut_slice(),
    );
    Outcome::read(answer, store, left)
}

fn judged(answer: raw::Answer) -> Result<(), Refusal> {
    match Refusal::from_answer(answer) {
        Some(refusal) => Err(refusal),
        None => Ok(()),
    }
}
