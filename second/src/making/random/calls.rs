//! Random transfers, and lists of calls on a session.

use crate::making::cases::Case;
use crate::making::chance::Random;
use crate::making::transfers;
use crate::reading::flags;
use crate::reading::frames::{Call, HeaderKind, Opening};

/// A readable transfer of this kind with the flags D0 to D6 and a few further header bytes. Of VP8 it has a stamp, a layer or none, and any flags that
/// are ignored.
pub fn readable(r: &mut Random, kind: HeaderKind, flags: u8, stamp: u32, data: &[u8]) -> Vec<u8> {
    let more = if r.once_in(6) { r.below(5) } else { 0 };
    match kind {
        HeaderKind::Old => transfers::transfer(flags::END | flags, stamp, more, data),
        HeaderKind::Vp8 => {
            let layered = if r.once_in(3) { flags::LAYER } else { 0 };
            let layer = r.pick(&[0, 1, 0x80, 0x1234, 0xFF00, 0xFFFF]);
            let flags = [flags::PTS | layered | flags, r.byte(), flags::END | r.byte()];
            transfers::vp8(flags, stamp, layer, more, data)
        }
    }
}

/// A transfer of this kind that is nearly readable, or is.
pub fn nearly(r: &mut Random, kind: HeaderKind, stamp: u32) -> Vec<u8> {
    let flags = r.byte() & 0x7F;
    let mut t = readable(r, kind, flags, stamp, &[1, 2]);
    match (r.below(4), kind) {
        (0, _) => t[0] = r.below(5) as u8,
        (1, _) => t[0] = t.len() as u8 + 1,
        (2, HeaderKind::Old) => t[1] |= r.pick(&[4, 8, 12]),
        (_, HeaderKind::Old) => t[1] &= 0x7F,
        (2, HeaderKind::Vp8) => t[1] |= r.pick(&[8, 0x80, 0x88]),
        (_, HeaderKind::Vp8) => {
            // D23, the stamp's bit, or both are clear.
            let clear = r.pick(&[1, 2, 2, 3]);
            t[3] &= if clear & 1 == 1 { 0x7F } else { 0xFF };
            t[1] &= if clear & 2 == 2 { !flags::PTS } else { 0xFF };
        }
    }
    t
}

/// A list of calls on one session of either kind.
pub fn calls(r: &mut Random, most: usize) -> Case {
    let kind = r.pick(&HeaderKind::ALL);
    let frame = match r.below(30) {
        0 => r.pick(&[0, 16_777_216, 16_777_217, u32::MAX as usize]),
        1 => 1,
        _ => 1 + r.below(40),
    };
    let payload = match r.below(30) {
        0 => r.pick(&[0, 1, 2, 65_536, 65_537]),
        1 => 2 + r.below(12),
        _ => 20 + r.below(60),
    };
    let opening = Opening { frame, payload, framing: framing(r), kind };
    let room = match r.below(30) {
        0 => frame.saturating_sub(1).min(300),
        _ => frame.min(300) + r.below(8),
    };
    let buffer = r.bytes(room);
    let calls = list(r, &opening, most);
    if r.once_in(4) {
        return Case::Calls { opening, buffer, calls };
    }
    Case::Whole { opening, buffer, calls }
}

/// A list of calls with a large room: frames of a few long transfers, around a frame size of over 70,000 bytes; now and then the largest.
pub fn room(r: &mut Random) -> Case {
    let kind = r.pick(&HeaderKind::ALL);
    let frame = match r.below(4) {
        0 => 16_777_216 + r.below(2),
        1 => 70_001 + r.below(100_000),
        _ => 65_520 * (2 + r.below(3)) + r.below(3),
    };
    let room = (frame + r.below(90)).saturating_sub(r.below(3)).min(16_777_300);
    let opening = Opening { frame, payload: 65_536, framing: framing(r), kind };
    let mut fid = 0u8;
    let mut calls = Vec::new();
    for _ in 0..r.below(12) {
        let eof = if r.once_in(4) { flags::EOF } else { 0 };
        let size = r.pick(&[65_520, 65_520, 65_519, 65_522, 1_000, 1, 0]);
        let data = r.bytes(size);
        let t = Call::Transfer(readable(r, kind, fid | eof, 7, &data));
        if !opening.sends_eof() {
            calls.push(t.clone());
        }
        calls.push(t);
        if r.once_in(4) {
            fid ^= 1;
        }
        if r.once_in(12) {
            calls.push(r.pick(&[Call::Lost, Call::Transfer(vec![2]), Call::Transfer(vec![0; 65_537]), Call::Close]));
        }
    }
    Case::Room { opening, room, calls }
}

/// Up to `most` calls and some more: frames of a few transfers, with every fault now and then.
pub fn list(r: &mut Random, opening: &Opening, most: usize) -> Vec<Call> {
    let kind = opening.kind;
    let frame = opening.frame.min(60);
    let n = r.below(most + 1);
    let eofs = 1 + r.below(6);
    let turns = 1 + r.below(8);
    let faulty = r.pick(&[3, 8, 30, 1000]);
    let stills = r.pick(&[1, 2, 4, 1000]);
    let mut fid = 0u8;
    let mut still = 0u8;
    let mut stamp = r.pick(&[0, 0x10, 0xFFFF_FFF0, 0x7FFF_FFF8, 0x8000_0000, 12_345]);
    let mut list = Vec::with_capacity(n);
    for i in 0..n {
        if r.once_in(faulty * 2) {
            list.push(match r.below(10) {
                0 | 1 => Call::Transfer(vec![]),
                2 | 3 => Call::Lost,
                4 => {
                    let k = 1 + r.below(3);
                    Call::Transfer(r.bytes(k))
                }
                5 => {
                    let k = 2 + r.below(20);
                    Call::Transfer(r.bytes(k))
                }
                6..=8 => Call::Transfer(nearly(r, kind, stamp)),
                _ if i + 3 > n || r.once_in(40) => Call::Close,
                _ => {
                    // Around the payload size.
                    let k = opening.payload.min(300) + r.below(3);
                    let mut t = readable(r, kind, 0, stamp, &[]);
                    t.resize(k.max(t.len()), 0xEE);
                    Call::Transfer(t)
                }
            });
            continue;
        }
        if r.once_in(turns) {
            fid ^= 1;
            still = if r.once_in(stills) { flags::STILL } else { 0 };
            stamp = match r.below(12) {
                0 => r.next() as u32,
                1 => stamp.wrapping_add(0x7FFF_FFFF).wrapping_add(r.below(3) as u32),
                2 => stamp.wrapping_sub(r.below(40) as u32),
                _ => stamp.wrapping_add(r.below(40) as u32),
            };
        }
        let mut flags = fid | still | (r.byte() & 0x10);
        if r.once_in(faulty * 2) {
            flags ^= flags::STILL;
        }
        if r.once_in(eofs) {
            flags |= flags::EOF;
        }
        if r.once_in(3) {
            flags |= flags::PTS;
        }
        if r.once_in(8) {
            flags |= flags::SCR;
        }
        if r.once_in(faulty) {
            flags |= flags::ERROR;
        }
        let s = if r.once_in(faulty * 2) { stamp ^ 1 } else { stamp };
        let size = match r.below(5) {
            0 => 0,
            1 => r.below(frame + 3),
            _ => r.below(frame / 3 + 2),
        };
        let data = r.bytes(size);
        let offered = Call::Transfer(readable(r, kind, flags, s, &data));
        // A hand-out does not take the transfer: it is offered again, mostly at once.
        if !opening.sends_eof() && r.once_in(2) {
            list.push(offered.clone());
            if r.once_in(6) {
                list.push(r.pick(&[Call::Lost, Call::Transfer(vec![]), Call::Transfer(vec![2])]));
            }
        }
        list.push(offered);
    }
    if r.once_in(2) {
        list.push(Call::Close);
        if r.once_in(3) {
            list.push(r.pick(&[Call::Close, Call::Lost, Call::Transfer(vec![]), Call::Transfer(vec![2, 0x80, 1])]));
        }
    }
    if r.once_in(150) {
        let at = r.below(list.len().min(4) + 1);
        list.insert(at, Call::Transfer(vec![2; 65_536 + r.below(2)]));
    }
    list
}

/// A framing byte: that of the trace programs, or one with D1 clear, or any.
pub fn framing(r: &mut Random) -> u8 {
    match r.below(5) {
        0 | 1 => 3,
        2 | 3 => r.pick(&[0, 1]),
        _ => r.byte(),
    }
}
