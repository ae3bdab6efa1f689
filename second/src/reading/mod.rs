//! What reads, from the documents' text: it stands on nothing else here.

pub mod camera;
pub mod configuration;
pub mod control;
pub mod flags;
pub mod frames;
pub mod printed;
pub mod probe;
pub mod records;
pub mod refusal;
pub mod sender;
pub mod session;
pub mod setup;
pub mod sizes;
pub mod streaming;
pub mod told;
pub mod traces;
