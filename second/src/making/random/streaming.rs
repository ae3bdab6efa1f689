//! Random streaming blocks, well-formed and damaged, and tables that no control block gives.

use crate::making::blocks::{self, STREAMING_TOTAL};
use crate::making::cases::Case;
use crate::making::chance::Random;
use crate::making::random::damage::damage;
use crate::reading::control::Revision;
use crate::reading::streaming::Place;

pub fn interval(r: &mut Random) -> u32 {
    match r.below(6) {
        0 => r.next() as u32,
        1 => r.pick(&[0, 1, u32::MAX, u32::MAX - 1]),
        _ => 1 + r.below(1_000_000) as u32,
    }
}

/// Width, height and buffer size, mostly near what a picture of so many bits per pixel needs.
fn sizes(r: &mut Random, bits: u8) -> (u16, u16, u32) {
    if r.once_in(20) {
        return (r.next() as u16, r.next() as u16, r.next() as u32);
    }
    let edge = r.pick(&[4, 100, 2_000, 65_536]);
    let low = if r.once_in(20) { 0 } else { 1 };
    let (width, height) = ((low + r.below(edge)).min(65_535), (low + r.below(edge)).min(65_535));
    let bytes = (width * height * bits as usize + 7) / 8;
    let size = match r.below(12) {
        0 => bytes.saturating_sub(1),
        1 => bytes / 2,
        2 | 3 => bytes + r.below(1_000),
        _ => bytes,
    };
    (width as u16, height as u16, size.min(u32::MAX as usize) as u32)
}

/// A frame of any kind: one of subtype 0x11 has bytes per line, any other a buffer size.
fn of_kind(subtype: u8, index: u8, (width, height, size): (u16, u16, u32), line: u32, default: u32, k: u8, intervals: &[u32]) -> Vec<u8> {
    if subtype == 0x11 {
        return blocks::line_frame(index, width, height, line, default, k, intervals);
    }
    blocks::frame(subtype, index, width, height, size, default, k, intervals)
}

fn frame(r: &mut Random, subtype: u8, index: u8, bits: u8, line: u32, offered: &mut Vec<u32>) -> Vec<u8> {
    let picture = sizes(r, bits);
    if r.once_in(3) {
        let shortest = if r.once_in(30) { 0 } else { interval(r) };
        let step = match r.below(20) {
            0 => 0,
            1 => interval(r),
            _ => 1 + r.below(1000) as u32,
        };
        let times = r.below(50) as u32;
        let longest =
            if r.once_in(12) { interval(r) } else { shortest.saturating_add(step.saturating_mul(times)).saturating_add(r.below(3) as u32) };
        let default =
            if r.once_in(15) { interval(r) } else { shortest.wrapping_add(step.wrapping_mul(r.below(times as usize + 1) as u32)) };
        offered.extend([default, shortest, longest]);
        return of_kind(subtype, index, picture, line, default, 0, &[shortest, longest, step]);
    }
    let k = if r.once_in(40) { 57 } else { 1 + r.below(5) };
    let mut list: Vec<u32> = (0..k).map(|_| interval(r)).collect();
    if !r.once_in(20) {
        list.sort_unstable();
        list.dedup();
        list.retain(|&x| x != 0);
    }
    if list.is_empty() {
        list.push(333_333);
    }
    if r.once_in(25) {
        list.insert(0, list[0]);
    }
    let default = if r.once_in(15) { interval(r) } else { r.pick(&list) };
    offered.push(default);
    offered.extend(&list);
    of_kind(subtype, index, picture, line, default, list.len() as u8, &list)
}

/// A streaming block, and intervals that its frames may offer.
pub fn streaming(r: &mut Random) -> (Vec<u8>, Vec<u32>) {
    let formats = match r.below(20) {
        0 => r.pick(&[7, 8, 9]),
        1 => 0,
        _ => 1 + r.below(3),
    };
    let mut offered = vec![0, 333_333];
    let mut all: Vec<Vec<u8>> = Vec::new();
    for number in 1..=formats {
        let frames = if r.once_in(25) { r.pick(&[32, 33, 63, 64, 65]) } else { 1 + r.below(4) };
        let count = if r.once_in(25) { r.below(5) } else { frames };
        let default = if r.once_in(25) { r.below(6) } else { 1 + r.below(frames) };
        let index = if r.once_in(25) { r.byte() } else { number as u8 };
        let subtype = r.pick(&[4, 6, 0x10]);
        let flag = if r.once_in(25) { r.pick(&[2, 3, 255]) } else { r.below(2) as u8 };
        let (mut guid, right) = r.pick(&[(blocks::YUY2, 16), (blocks::NV12, 12), ([7; 16], 24)]);
        let bits = if r.once_in(20) { r.pick(&[0, 12, 16, 24, 255]) } else { right };
        if r.once_in(10) {
            guid[r.below(16)] ^= 1;
        }
        all.push(match subtype {
            4 => blocks::uncompressed(index, count as u8, &guid, bits, default as u8),
            6 => blocks::mjpeg(index, count as u8, default as u8),
            _ => blocks::frame_based(index, count as u8, &guid, bits, default as u8, flag),
        });
        for f in 1..=frames {
            if r.once_in(10) {
                let between = r.pick(&[3, 0x0D, 0x0E, 0x20, 8, 9, 0x0B, 0x0F, 0x19]);
                let k = r.below(8);
                let rest = r.bytes(k);
                all.push(blocks::descriptor(between, &rest));
            }
            if frames > 30 {
                all.push(of_kind(subtype + 1, f as u8, (640, 480, 614_400), 0, 333_333, 1, &[333_333]));
                continue;
            }
            let subtype = if r.once_in(60) { r.pick(&[5, 7, 0x11]) } else { subtype + 1 };
            let index = if r.once_in(60) { r.byte() } else { f as u8 };
            let line = if r.once_in(if flag == 1 { 12 } else { 2 }) { r.pick(&[1, 256, 0x0100_0000, u32::MAX]) } else { 0 };
            all.push(frame(r, subtype, index, bits, line, &mut offered));
        }
    }
    if r.once_in(30) {
        all.push(blocks::descriptor(r.pick(&[2, 0x0A, 0x0C, 0x12, 0x14, 0x18]), &[1, 2, 3]));
    }
    let p = if r.once_in(20) { r.below(10) } else { formats };
    let endpoint = if r.once_in(20) { 0x02 } else { 0x80 | r.byte() };
    let link = if r.once_in(20) { r.pick(&[0, 1, 2, 3]) } else { 9 };
    let n = r.below(3) as u8;
    (blocks::streaming(p as u8, endpoint, link, n, &all), offered)
}

pub fn maybe_damaged_streaming(r: &mut Random) -> (Vec<u8>, Vec<u32>) {
    let (mut block, offered) = streaming(r);
    if r.once_in(3) {
        damage(r, &mut block, STREAMING_TOTAL);
    }
    (block, offered)
}

pub fn hostile(r: &mut Random) -> Case {
    let (block, _) = maybe_damaged_streaming(r);
    let count = match r.below(4) {
        0 => 32 + r.below(9),
        1 => r.below(41),
        _ => r.below(33),
    };
    let sound = r.once_in(2);
    let mut places: Vec<Place> = (0..32)
        .map(|_| Place {
            id: if r.once_in(5) { 9 } else { r.byte() % 12 },
            kind: if sound { 3 } else { r.below(8) as u8 },
            terminal: if sound { 0x0101 } else { r.pick(&[0x0101, 0x0101, 0x0201, 0x0001, 0x0100]) },
            offset: r.next() as u16,
        })
        .collect();
    if r.once_in(2) {
        places[r.below(32)] = Place { id: 9, kind: 3, terminal: 0x0101, offset: 0 };
    }
    Case::Hostile(count as u8, r.pick(&Revision::ALL), places, block)
}
