//! The second runner in place of the proved one.

pub use crate::second::{check_programme, run, stretch};
pub use second_runner::{check_store, check_table};
