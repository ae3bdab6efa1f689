//! Damage to a block.

use crate::making::blocks;
use crate::making::chance::Random;

/// Changes a block in one to three ways; the total length is often set right again, so that what lies deeper is met.
pub fn damage(r: &mut Random, block: &mut Vec<u8>, total_at: usize) {
    for _ in 0..1 + r.below(3) {
        if block.is_empty() {
            return;
        }
        let at = r.below(block.len());
        match r.below(12) {
            0 | 1 => block[at] = r.byte(),
            2 => block[at] = block[at].wrapping_add(r.pick(&[1, 255])),
            3 => block[at] = r.pick(&[0, 1, 2, 3, 5, 6, 7, 0x0A, 0x0D, 0x10, 0x24, 0xFF]),
            4 => block.truncate(at),
            5 => {
                let more = 1 + r.below(12);
                let bytes = r.bytes(more);
                block.extend(bytes);
            }
            6 => {
                block.remove(at);
            }
            7 => block.insert(at, r.byte()),
            _ => one_descriptor(r, block),
        }
        if !r.once_in(4) {
            blocks::total(block, total_at);
        }
    }
}

/// Makes a descriptor a byte longer or shorter, or sets a copy of it behind another.
fn one_descriptor(r: &mut Random, block: &mut Vec<u8>) {
    let mut starts = vec![0];
    let mut at = 0;
    while at < block.len() && block[at] > 0 {
        at += block[at] as usize;
        starts.push(at);
    }
    let at = r.pick(&starts);
    let end = at + block.get(at).map_or(0, |&n| n as usize);
    if end <= at + 3 || end > block.len() {
        return;
    }
    match r.below(3) {
        0 => {
            block.insert(end, r.byte());
            block[at] = block[at].wrapping_add(1);
        }
        1 => {
            block.remove(end - 1);
            block[at] -= 1;
        }
        _ => {
            let copy = block[at..end].to_vec();
            let to = r.pick(&starts).min(block.len());
            let rest = block.split_off(to);
            block.extend(copy);
            block.extend(rest);
        }
    }
}
