//! The command on real files: exit status, standard output and standard error.

#![forbid(unsafe_code)]

mod assembling;
mod blocks;
mod damaged;
mod desk;
mod explaining;
mod failing;
mod helping;
mod journals;
mod keeping;
mod listing;
mod resuming;
mod running;
mod slicing;
mod two_files;
