//! A refusal: its number, and where.

/// Why a reader refuses, and where.
#[derive(Clone, Debug, PartialEq)]
pub struct Refusal {
    pub number: u8,
    pub offset: usize,
}
