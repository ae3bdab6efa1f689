//! What makes cases, chosen or at random, and what is to be printed of them: it stands on what reads.

pub mod answers;
pub mod blocks;
pub mod cases;
pub mod chance;
pub mod configurations;
pub mod random;
pub mod transfers;
