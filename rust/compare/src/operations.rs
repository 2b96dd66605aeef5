//! What is counted of operations: code that is refused in an operand, operations
//! that runs work out, and steps that are refused for one.

mod places;
mod worked;
mod working;

pub use self::places::Places;
pub use self::worked::Worked;
