//! Times the proved runner beside the second one, on the same inputs, and beside
//! CPython on a counting loop.
//!
//! For each workload and rule it prints the best time of each runner, per step
//! or per run, and their ratio; then how they stand to the demands, the check
//! of full-size sheets, what a journal costs, what it takes to pause a run and to
//! carry it on, and the worst step and call found.
//! No time changes its exit status.
//!
//! A run that finishes is played twice, the second time up to its last write, to
//! fill its journal; one that is refused is played once. What the second pass
//! adds is seen beside the same run refused at its last step, by a budget one
//! step short (17) or a journal one entry short (18).

#![forbid(unsafe_code)]

mod cases;
mod code;
mod floors;
mod journals;
mod operations;
mod pauses;
mod python;
mod report;
mod runners;
mod sheets;
mod stretches;
mod timing;
mod workloads;

use std::io::{self, Write};

use muntyzhap::BuildError;

use crate::cases::{Cases, Workloads};
use crate::python::Python;
use crate::runners::Lent;
use crate::workloads::ROUNDS;

fn main() -> Result<(), BuildError> {
    let workloads = Workloads::all()?;
    let mut lent = Lent::new();
    let mut cases = Cases::of(&workloads, &mut lent);
    let mut python = Python::start();
    // A round goes over all cases, so that what else the machine does for a
    // while spoils no case's every time.
    for round in 0..ROUNDS {
        cases.repeat(round, &mut lent);
        python = python.and_then(Python::repeated);
    }
    for line in report::lines(&cases, python.as_ref()) {
        if writeln!(io::stdout(), "{line}").is_err() {
            break; // Nobody reads on.
        }
    }
    Ok(())
}
