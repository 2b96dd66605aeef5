//! What sheets and texts say, as trees, and the names that people give to
//! principals, slots and blocks.
//!
//! A sheet has numbers only; a text in the notation has names. Both come to a
//! [`Store`] and a [`Programme`]. Nothing here is judged: that is the library's
//! part, and [`order`] says in words what an order table lacks.

#![forbid(unsafe_code)]

mod names;
mod near;
pub mod order;
mod tree;
mod words;

pub use crate::names::Names;
pub use crate::near::{closest, suggestion};
pub use crate::tree::{
    Block, Code, Command, Expression, Floor, Form, Operator, Programme, Slot, Store,
};
pub use crate::words::count;
pub use muntyzhap::Value;
