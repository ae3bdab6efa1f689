//! The commands: it stands on all the others.

pub mod commands;
mod compare;
mod programs;
