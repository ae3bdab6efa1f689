//! The cases that are stored: it stands on what makes cases and on what reads them.

mod blocks;
pub mod calls;
mod configurations;
mod documents;
mod records;
mod senders;
mod settings;
pub mod stored;
mod streams;
mod traces;
mod vp8;
