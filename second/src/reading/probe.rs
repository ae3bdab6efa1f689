//! A probe block: its fields, and what it asks of a streaming block.

use crate::reading::control::Revision;
use crate::reading::refusal::Refusal;
use crate::reading::sizes::sizes;
use crate::reading::streaming::{read, u32_at, Table};

/// The widths of the 21 fields before the layout, in the order of the 48 bytes.
const WIDTHS: [usize; 21] = [2, 1, 1, 4, 2, 2, 2, 2, 2, 4, 4, 4, 1, 1, 1, 1, 1, 1, 1, 1, 2];

/// All fields of a probe block, and the eight bytes of its layout. What an older block lacks is 0.
pub fn fields(revision: Revision, probe: &[u8]) -> Result<Vec<u32>, Refusal> {
    if probe.len() != revision.probe() {
        return Err(Refusal { number: 41, offset: 0 });
    }
    let mut probe = probe.to_vec();
    probe.resize(48, 0);
    let mut at = 0;
    let mut all = Vec::new();
    for width in WIDTHS.into_iter().chain([1; 8]) {
        all.push(probe[at..at + width].iter().rev().fold(0, |n, &b| n << 8 | u32::from(b)));
        at += width;
    }
    Ok(all)
}

/// Writes fields into a room: its first bytes, as many as the revision says, or nothing.
pub fn write(revision: Revision, fields: &[u32], room: &mut [u8]) -> Result<(), Refusal> {
    if room.len() < revision.probe() {
        return Err(Refusal { number: 41, offset: 0 });
    }
    let mut at = 0;
    for (&n, width) in fields.iter().zip(WIDTHS.into_iter().chain([1; 8])) {
        if at == revision.probe() {
            break;
        }
        room[at..at + width].copy_from_slice(&n.to_le_bytes()[..width]);
        at += width;
    }
    Ok(())
}

pub fn check(table: &Table, block: &[u8], probe: &[u8]) -> Result<(), Refusal> {
    let no = |number| Err(Refusal { number, offset: 0 });
    if probe.len() != table.revision.probe() {
        return no(41);
    }
    let s = read(table, block)?;
    let (format, frame) = (probe[2] as usize, probe[3]);
    if format < 1 || format > s.formats.len() {
        return no(42);
    }
    match s.frames.iter().find(|f| f.format == format && f.index == frame) {
        None => no(43),
        Some(f) if !f.offers.has(u32_at(probe, 4)) => no(44),
        Some(_) => sizes(u64::from(u32_at(probe, 18)), u64::from(u32_at(probe, 22))),
    }
}
