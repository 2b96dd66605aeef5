//! Reads any bytes as a store sheet or a programme sheet, as far as they go: what
//! each byte is, the [`model`] of a good sheet, and where and why a bad one is
//! refused, with the two numbers that disagree.
//!
//! The refusal is the library's own: the same number, block and offset, found in
//! the same order. What is read past it is told as well, so that a listing shows
//! every byte and every fault, but only the first is the answer.

#![forbid(unsafe_code)]

mod code;
mod header;
mod item;
mod layout;
mod listing;
mod programme;
mod sizes;
mod store;
mod text;
mod walk;
mod words;

pub use crate::item::{Item, Mark, Refused, What};
pub use crate::layout::{split, Sizes};
pub use crate::listing::{listing, Sheet};
pub use crate::programme::{programme, programme_model, ProgrammeRead};
pub use crate::store::{store, store_model, StoreRead};
