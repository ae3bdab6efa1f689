//! Sessions of VP8 cameras: 61 to 67, the flags that are ignored, and the layer that is reported.

use crate::corpus::calls::of_kind;
use crate::corpus::records::plain_record;
use crate::making::cases::Case;
use crate::making::transfers::*;
use crate::reading::flags::*;
use crate::reading::frames::{Call, HeaderKind};
use crate::reading::records::{Phase, Record};

pub fn all() -> Vec<Case> {
    let mut all = transfers();
    all.extend(small_payloads());
    all.extend(ignored_flags());
    all.extend(faults());
    all.extend(layers());
    all.extend(hand_outs());
    all.extend(records());
    all
}

fn session(framing: u8, calls: Vec<Call>) -> Case {
    of_kind(HeaderKind::Vp8, 8, 62, framing, 12, calls)
}

fn send(flags: u8, data: &[u8]) -> Call {
    Call::Transfer(vp8([PTS | flags, 0, END], 7, 0, 0, data))
}

fn layered(flags: u8, layer: u16, data: &[u8]) -> Call {
    Call::Transfer(vp8([PTS | LAYER | flags, 0, END], 7, layer, 0, data))
}

/// Single transfers: idle, 61 to 67 and their edges, headers of every length.
fn transfers() -> Vec<Case> {
    let mut raw: Vec<Vec<u8>> = vec![
        // The samples of request Twelve's readings.
        vec![8, 4, 0, 0x80, 1, 2, 3, 4],
        vec![4, 0, 0, 0x80],
        vec![4, 0, 0, 0],
        vec![8, 4, 0x80, 0, 1, 2, 3, 4],
        vec![8, 0x84, 0, 0x80, 1, 2, 3, 4],
        vec![8, 4, 0],
        vec![16, 0x8C, 0, 0x80, 1, 2, 3, 4, 5, 6, 7, 8, 9, 10, 0x34, 0x12, 0xAA],
        vec![],
        vec![0],
        vec![4],
        vec![8, 4],
        vec![0, 4, 0, 0x80],
        vec![2, 0x80, 0, 0x80],
        vec![3, 4, 0, 0x80, 1, 2, 3, 4],
        vec![9, 4, 0, 0x80, 1, 2, 3, 4],
        [vec![0xFF, 6, 0, 0x80], vec![9; 260]].concat(),
        [vec![8, 6, 0, 0x80], vec![9; 54]].concat(),
        [vec![8, 6, 0, 0x80], vec![9; 55]].concat(),
        // An old header.
        transfer(END | PTS | EOF, 7, 0, &[1, 2]),
    ];
    // Each set of fields, in a header a byte too short, just long enough and a byte longer, D23 set and clear.
    for fields in 0..8u8 {
        let bit = |n: u8, flag: u8| if fields >> n & 1 == 1 { flag } else { 0 };
        let flags = bit(0, PTS) | bit(1, SCR) | bit(2, LAYER);
        let need = 4 + bit(0, 4) + bit(1, 6) + bit(2, 2);
        for end in [END, 0] {
            for header in [need - 1, need, need + 1] {
                raw.push([vec![header, flags, 0, end], (1..=18).collect()].concat());
            }
        }
    }
    // Among transfers with the same stamp, so that the frame is whole where it is readable.
    let beside = |flags: u8, data: &[u8]| Call::Transfer(vp8([PTS | flags, 0, END], 0x0403_0201, 0, 0, data));
    let mut all = Vec::new();
    for t in raw {
        let wide = |calls: Vec<Call>| of_kind(HeaderKind::Vp8, 80, 62, 3, 82, calls);
        all.push(wide(vec![Call::Transfer(t.clone()), Call::Close]));
        all.push(wide(vec![beside(0, &[1, 2]), Call::Transfer(t), beside(EOF, &[3])]));
    }
    all
}

/// A payload size under 8 is accepted, and makes every transfer that is not idle unreadable.
fn small_payloads() -> Vec<Case> {
    let calls: Vec<Call> = [
        vec![],
        vec![4],
        vec![4, 0, 0],
        vec![4, 0, 0, 0x80],
        vec![4, 4, 0, 0x80],
        vec![4, 0, 0, 0],
        vec![3, 0, 0, 0x80],
        vec![5, 2, 0, 0x80, 1],
        vec![7, 2, 0, 0x80, 1, 2, 3],
        vec![8, 6, 0, 0x80, 1, 2, 3, 4],
        vec![8, 7, 0, 0x80, 1, 2, 3, 4, 5],
    ]
    .into_iter()
    .map(Call::Transfer)
    .collect();
    (1..=9).map(|payload| of_kind(HeaderKind::Vp8, 8, payload, 3, 8, calls.clone())).collect()
}

/// D4, D5 and D8 to D22, in the first transfer of a frame or in all: no still, no mixed, nothing else. Among them stand the bits that count.
fn ignored_flags() -> Vec<Case> {
    let with = |bits: u32, flags: u8| {
        let [a, b, c, _] = bits.to_le_bytes();
        Call::Transfer(vp8([PTS | flags | a, b, c | END], 7, 0x0102, 0, &[1]))
    };
    let mut all = Vec::new();
    for n in 0..23 {
        let bit = 1 << n;
        for last in [0, bit] {
            all.push(session(3, vec![with(bit, 0), with(last, EOF), with(bit, FID | EOF), Call::Close]));
        }
    }
    all.push(session(3, vec![with(0x7F_FF30, 0), with(0, EOF), with(0x7F_FF30, FID | EOF)]));
    all
}

/// Each fault in a frame's first transfer and in a later one, with D5 and without, alone and with each other: what comes first counts.
fn faults() -> Vec<Case> {
    let mut all = Vec::new();
    for bits in 0..64u8 {
        let on = |n: u8| bits >> n & 1 == 1;
        let mut calls = Vec::new();
        if on(4) {
            calls.push(send(0, &[1]));
        }
        if on(0) {
            calls.push(Call::Transfer(vec![4, 0, 0, 0x80]));
        }
        let flags = PTS | EOF | if on(1) { ERROR } else { 0 } | if on(5) { STILL } else { 0 };
        let data = if on(3) { vec![2; 20] } else { vec![3] };
        calls.push(Call::Transfer(vp8([flags, 0, END], if on(2) { 8 } else { 7 }, 0, 0, &data)));
        calls.extend([send(FID | EOF, &[9]), Call::Close]);
        all.push(session(3, calls));
    }
    all
}

/// Which layer is reported with a delivered frame.
fn layers() -> Vec<Case> {
    let mut all = Vec::new();
    let mut add = |calls: Vec<Call>| {
        all.push(session(3, calls.clone()));
        // The same with a frame after it that has no layer of its own.
        all.push(session(3, [calls, vec![send(FID, &[8]), send(FID | EOF, &[9]), Call::Close]].concat()));
    };
    for layer in [0, 1, 0x80, 0xFF, 0x100, 0x1234, 0x1F80, 0xFFFF] {
        add(vec![layered(EOF, layer, &[1])]);
    }
    // In the first transfer, in the last, in one between, in several: the last that has one counts, and layers that differ are no fault.
    for bits in 0..8u16 {
        let one = |n: u16, flags: u8| if bits >> n & 1 == 1 { layered(flags, 10 + n, &[1]) } else { send(flags, &[2]) };
        add(vec![one(0, 0), one(1, 0), one(2, EOF)]);
    }
    // A transfer without data has its say; an idle one between does not.
    add(vec![layered(0, 1, &[1]), layered(EOF, 2, &[])]);
    add(vec![layered(0, 1, &[]), Call::Transfer(vec![]), send(EOF, &[2])]);
    // Behind the source clock, and before header bytes that nothing announces.
    for more in [0, 1, 2, 3] {
        for scr in [0, SCR] {
            add(vec![Call::Transfer(vp8([PTS | LAYER | EOF | scr, 0, END], 7, 0x1234, more, &[1]))]);
        }
    }
    // A stray's layer and that of an unreadable transfer are nobody's.
    add(vec![send(EOF, &[1]), layered(0, 5, &[2])]);
    add(vec![layered(EOF, 4, &[1]), layered(EOF, 5, &[2])]);
    add(vec![Call::Transfer(vp8([LAYER, 0, END], 7, 5, 0, &[1])), send(EOF, &[1])]);
    // A dropped frame has its reason alone, and leaves no layer behind.
    add(vec![layered(EOF, 5, &[])]);
    add(vec![layered(EOF | ERROR, 5, &[1])]);
    add(vec![layered(EOF, 5, &[1; 9])]);
    add(vec![layered(0, 5, &[1]), Call::Lost, layered(EOF, 6, &[2])]);
    add(vec![layered(0, 5, &[1])]);
    add(vec![layered(0, 5, &[1]), Call::Close]);
    all.extend([session(3, vec![]), session(3, vec![layered(0, 5, &[1]), Call::Lost])]);
    all
}

/// Frames of cameras that send no EOF: the layer is handed out with them, and that of the transfer offered is not theirs.
fn hand_outs() -> Vec<Case> {
    let mut all = Vec::new();
    for bits in 0..16u16 {
        let one = |n: u16, flags: u8| if bits >> n & 1 == 1 { layered(flags, 10 + n, &[1]) } else { send(flags, &[2]) };
        // Offered, offered again, and a frame of one transfer behind it.
        all.push(session(1, vec![one(0, 0), one(1, EOF), one(2, FID), one(2, FID), one(3, 0), one(3, 0), Call::Close]));
        // After the hand-out a stray with a layer, and another transfer than the one offered.
        all.push(session(0, vec![one(0, STILL), one(1, FID), one(2, 0), one(3, FID), send(0, &[5]), send(0, &[5])]));
    }
    // A frame that is dropped where the FID turns, and what cannot be read hands nothing out.
    for first in [layered(ERROR, 3, &[1]), layered(0, 3, &[]), layered(0, 3, &[1; 9])] {
        all.push(session(1, vec![first, layered(FID, 4, &[1]), send(0, &[2]), send(0, &[2]), Call::Close]));
    }
    for bad in [vec![], vec![8, 5, 0], vec![4, 1, 0, 0x80], vec![8, 5, 0, 0, 1, 2, 3, 4], transfer(END | FID, 7, 0, &[1, 2])] {
        all.push(session(1, vec![layered(0, 3, &[1]), Call::Transfer(bad), send(FID, &[1]), send(FID, &[1]), Call::Close]));
    }
    all
}

/// Records as they stand: a layer and a still bit of either kind are taken as they are, and break no 50.
fn records() -> Vec<Case> {
    let mut all = Vec::new();
    for kind in HeaderKind::ALL {
        let of = |flags: u8| match kind {
            HeaderKind::Old => transfer(END | PTS | flags, 7, 0, &[1, 2]),
            HeaderKind::Vp8 => vp8([PTS | LAYER | flags, 0, END], 7, 0x0506, 0, &[1, 2]),
        };
        let mut add = |framing: u8, layer: Option<u16>, still: bool, fault: u8, flags: u8| {
            let phase = Phase::Under { fid: false, fault, bytes: 2, fill: 2, stamp: Some(7), still, layer };
            let r = Record { framing, kind, phase, ..plain_record() };
            all.push(Case::Forged(r.clone(), vec![0xAA; 9], of(flags)));
            all.push(Case::From(r, vec![0xAA; 9], vec![Call::Transfer(of(flags)); 2]));
        };
        for still in [false, true] {
            for layer in [None, Some(0), Some(0x1234), Some(0xFFFF)] {
                add(1, layer, still, 0, FID);
            }
            for flags in [0, FID, EOF, STILL, FID | STILL] {
                for fault in [0, 3] {
                    add(1, Some(5), still, fault, flags);
                    add(3, Some(5), still, fault, flags);
                }
            }
        }
        // A transfer of the other kind, and payload sizes around the smallest header.
        for t in [transfer(END | FID, 0, 0, &[1, 2]), vp8([PTS | FID, 0, END], 7, 0, 0, &[])] {
            for payload in [2, 7, 8, 9, 62] {
                let phase = Phase::Under { fid: false, fault: 0, bytes: 1, fill: 1, stamp: None, still: false, layer: Some(9) };
                let r = Record { payload, framing: 1, kind, phase, ..plain_record() };
                all.push(Case::Forged(r, vec![0xAA; 9], t.clone()));
            }
        }
    }
    all
}
