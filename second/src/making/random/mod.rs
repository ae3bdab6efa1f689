//! Random cases, a file for each kind.

pub mod any;
pub mod calls;
pub mod configurations;
pub mod control;
pub mod damage;
pub mod probe;
pub mod records;
pub mod runs;
pub mod senders;
pub mod settings;
pub mod streaming;
pub mod traces;
