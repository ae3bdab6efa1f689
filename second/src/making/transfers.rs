//! Builds transfers.

use crate::reading::flags::{LAYER, PTS, SCR};

/// A transfer with these flags, this stamp if PTS is among them, so many further header bytes, and data.
pub fn transfer(flags: u8, stamp: u32, more: usize, data: &[u8]) -> Vec<u8> {
    with_fields(&[flags], stamp, &vec![0xEE; more], data)
}

/// The same with a VP8 header: this layer if LAYER is among the flags.
pub fn vp8(flags: [u8; 3], stamp: u32, layer: u16, more: usize, data: &[u8]) -> Vec<u8> {
    let mut rest = Vec::new();
    if flags[0] & LAYER != 0 {
        rest.extend(layer.to_le_bytes());
    }
    rest.extend(vec![0xEE; more]);
    with_fields(&flags, stamp, &rest, data)
}

fn with_fields(flags: &[u8], stamp: u32, rest: &[u8], data: &[u8]) -> Vec<u8> {
    let mut t = [&[0], flags].concat();
    if flags[0] & PTS != 0 {
        t.extend(stamp.to_le_bytes());
    }
    if flags[0] & SCR != 0 {
        t.extend([0x5C; 6]);
    }
    t.extend(rest);
    t[0] = t.len() as u8;
    t.extend(data);
    t
}
