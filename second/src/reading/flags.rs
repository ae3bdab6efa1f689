//! The flags of a transfer's header.

pub const FID: u8 = 1;
pub const EOF: u8 = 2;
pub const PTS: u8 = 4;
pub const SCR: u8 = 8;
pub const STILL: u8 = 0x20;
pub const ERROR: u8 = 0x40;
pub const END: u8 = 0x80;

/// D7 of a VP8 header: the first byte of its flags has it where an old header has END, which is D23 there and stands in the third.
pub const LAYER: u8 = 0x80;
