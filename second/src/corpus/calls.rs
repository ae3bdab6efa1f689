//! Sessions of cameras with the old header: 45 to 47, 53, 55, 61 to 66, every fate and every fault.

use crate::making::cases::Case;
use crate::making::transfers::*;
use crate::reading::flags::*;
use crate::reading::frames::{Call, HeaderKind, Opening};

/// The calls of document 01's ledger sample.
pub fn ledger_sample() -> Vec<Call> {
    vec![
        send(0, &[0xAA, 0xBB]),
        send(EOF, &[0xCC]),
        send(EOF, &[0xDD]),
        send(FID, &[0xEE]),
        send(0, &[0x11]),
        Call::Transfer(vec![2]),
        send(EOF, &[0x22]),
    ]
}

pub fn all() -> Vec<Case> {
    let mut all = transfers();
    all.extend(frames());
    all.extend(fault_pairs());
    all.extend(stills());
    all.extend(no_eof());
    all.extend(earlier_boxes());
    all.extend(openings());
    all
}

fn session(frame: u32, payload: u32, room: usize, calls: Vec<Call>) -> Case {
    framed(frame, payload, 3, room, calls)
}

fn framed(frame: u32, payload: u32, framing: u8, room: usize, calls: Vec<Call>) -> Case {
    of_kind(HeaderKind::Old, frame as usize, payload as usize, framing, room, calls)
}

pub fn of_kind(kind: HeaderKind, frame: usize, payload: usize, framing: u8, room: usize, calls: Vec<Call>) -> Case {
    Case::Whole { opening: Opening { frame, payload, framing, kind }, buffer: vec![0xAA; room], calls }
}

fn send(flags: u8, data: &[u8]) -> Call {
    Call::Transfer(transfer(END | flags, 7, 0, data))
}

fn stamped(flags: u8, stamp: u32, data: &[u8]) -> Call {
    Call::Transfer(transfer(END | PTS | flags, stamp, 0, data))
}

/// Single transfers: idle, 61 to 66 and their edges, headers of every length, 55.
fn transfers() -> Vec<Case> {
    let raw: Vec<Vec<u8>> = vec![
        vec![],
        vec![0],
        vec![2],
        vec![2, 0x80],
        vec![3, 0x80],
        vec![2, 0],
        vec![0, 0x80],
        vec![1, 0x80],
        vec![0, 0],
        [vec![0x0B, 0x8C], vec![1; 9]].concat(),
        [vec![0x0C, 0x8C], vec![1; 10]].concat(),
        [vec![0x05, 0x84], vec![1; 9]].concat(),
        [vec![0x06, 0x84], vec![1; 9]].concat(),
        [vec![0x07, 0x88], vec![1; 9]].concat(),
        [vec![0x08, 0x88], vec![1; 9]].concat(),
        [vec![0x0C, 0x0C], vec![1; 10]].concat(),
        [vec![0x0B, 0x0C], vec![1; 9]].concat(),
        [vec![0x0B, 0x82], vec![1; 9]].concat(),
        [vec![0x0B, 0x82], vec![1; 8]].concat(),
        [vec![0xFF, 0x82], vec![9; 260]].concat(),
        [vec![0x02, 0xB2], vec![3; 18]].concat(),
        [vec![0x02, 0x82], vec![3; 19]].concat(),
        [vec![0x01, 0x82], vec![3; 19]].concat(),
    ];
    let mut all = Vec::new();
    for t in &raw {
        for payload in [20, 300] {
            all.push(session(30, payload, 32, vec![Call::Transfer(t.clone()), Call::Close]));
            all.push(session(30, payload, 32, vec![send(0, &[1, 2]), Call::Transfer(t.clone()), send(EOF, &[3])]));
        }
    }
    // The longest transfer that is taken, the payload size at its limit, and one byte more.
    for (payload, n) in [(65_536, 65_536), (65_536, 65_537), (65_535, 65_536), (2, 65_537)] {
        let mut t = vec![7; n];
        t[0] = 2;
        t[1] = 0x82;
        all.push(session(65_534, payload, 65_536, vec![Call::Transfer(t)]));
    }
    let mut t = vec![7; 65_536];
    t[..2].copy_from_slice(&[2, 0x82]);
    all.push(session(65_533, 65_536, 65_533, vec![Call::Transfer(t)]));
    all
}

/// Frames, runs, strays, idle transfers, gaps and steps.
fn frames() -> Vec<Case> {
    let mut all = Vec::new();
    let idle = || Call::Transfer(vec![]);
    let bad = || Call::Transfer(vec![2]);
    let mut add = |calls: Vec<Call>| {
        all.push(session(8, 32, 12, calls.clone()));
        let mut closed = calls;
        closed.push(Call::Close);
        all.push(session(8, 32, 12, closed));
    };
    add(ledger_sample());
    add(vec![]);
    add(vec![send(EOF, &[])]);
    add(vec![send(0, &[]), send(EOF, &[])]);
    add(vec![send(0, &[])]);
    add(vec![send(0, &[]), send(FID, &[])]);
    add(vec![send(EOF | ERROR, &[])]);
    add(vec![idle(), send(0, &[1]), idle(), send(EOF, &[2]), idle()]);
    add(vec![send(0, &[1]), send(FID, &[2]), send(0, &[3]), send(FID | EOF, &[4])]);
    // Just as long as the frame size, and a byte longer, in one transfer and in several.
    add(vec![send(EOF, &[1; 8])]);
    add(vec![send(EOF, &[1; 9])]);
    add(vec![send(0, &[1; 4]), send(EOF, &[2; 4])]);
    add(vec![send(0, &[1; 4]), send(EOF, &[2; 5])]);
    add(vec![send(0, &[1; 8]), send(0, &[]), send(0, &[3]), send(EOF, &[])]);
    add(vec![send(0, &[1; 9]), send(0, &[2]), send(FID | EOF, &[3; 8])]);
    // Gaps: before the first frame, between transfers, after EOF, before a stray, before another FID; an idle transfer between.
    for miss in [Call::Lost, bad()] {
        add(vec![miss.clone(), send(EOF, &[1])]);
        add(vec![miss.clone(), idle(), send(EOF, &[1]), send(FID | EOF, &[2])]);
        add(vec![send(0, &[1]), miss.clone(), send(EOF, &[2])]);
        add(vec![send(0, &[1]), miss.clone()]);
        add(vec![send(0, &[1]), miss.clone(), send(FID | EOF, &[2]), send(EOF, &[3])]);
        add(vec![send(0, &[1]), idle(), miss.clone(), idle(), send(FID | EOF, &[2]), send(EOF, &[3])]);
        add(vec![send(EOF, &[1]), miss.clone(), send(FID | EOF, &[2])]);
        add(vec![send(EOF, &[1]), miss.clone(), send(0, &[9]), send(FID | EOF, &[2])]);
        add(vec![send(EOF, &[1]), send(0, &[9]), miss.clone(), send(FID | EOF, &[2])]);
        add(vec![send(EOF, &[1]), miss.clone(), send(EOF | ERROR, &[9; 20]), send(FID | EOF, &[2])]);
        add(vec![send(0, &[1]), send(0, &[2]), miss.clone(), send(0, &[3]), send(EOF, &[4]), send(FID | EOF, &[5])]);
        add(vec![miss.clone(), miss.clone(), send(0, &[1]), miss.clone(), send(EOF, &[]), miss]);
    }
    // Stamps: the first may come late; another is a clock fault; SCR and a stray's stamp are ignored.
    add(vec![send(0, &[1]), stamped(0, 5, &[2]), stamped(EOF, 5, &[3])]);
    add(vec![send(0, &[1]), stamped(0, 5, &[2]), stamped(EOF, 6, &[3])]);
    add(vec![stamped(0, 5, &[1]), send(0, &[2]), send(EOF | SCR, &[3]), stamped(EOF | ERROR, 9, &[4])]);
    add(vec![stamped(0, 0, &[1]), stamped(EOF, 0, &[2]), stamped(FID | EOF, 0, &[2])]);
    // Steps between delivered frames, at the edges of 32 bits; a backward frame starts the next step.
    for (a, b) in [
        (0xFFFF_FFF0u32, 0x10),
        (0, 0x7FFF_FFFF),
        (0, 0x8000_0000),
        (0x8000_0000, 0),
        (5, 5),
        (5, 4),
        (4, 5),
        (0x7FFF_FFFF, 0xFFFF_FFFF),
        (1, 0),
        (0, 0xFFFF_FFFF),
    ] {
        add(vec![stamped(EOF, a, &[1]), stamped(FID | EOF, b, &[2])]);
        add(vec![stamped(EOF, a, &[1]), send(FID | EOF, &[3]), stamped(EOF, b, &[2]), stamped(FID | EOF, a, &[1]), stamped(EOF, b, &[4])]);
        add(vec![stamped(EOF, a, &[1]), stamped(FID | EOF | ERROR, 77, &[3]), stamped(EOF, 78, &[]), stamped(FID | EOF, b, &[2])]);
    }
    // After close.
    for after in [Call::Close, Call::Lost, idle(), bad(), send(EOF, &[1]), Call::Transfer(vec![2; 65_537])] {
        add(vec![send(0, &[1]), Call::Close, after]);
    }
    add(vec![Call::Close]);
    all
}

/// Every fault in every order of two: in two transfers, in one, and with each way for the frame to end.
fn fault_pairs() -> Vec<Case> {
    // What a fault adds to the list: calls that carry it, with one byte of data each where they have any.
    let faulty = |fault: usize, twice: bool| -> Vec<Call> {
        let wrong = if twice { 8 } else { 9 };
        match fault {
            0 => vec![Call::Lost, send(0, &[5])],
            1 => vec![Call::Transfer(vec![2]), send(0, &[5])],
            2 => vec![send(ERROR, &[6])],
            3 => vec![stamped(0, wrong, &[7])],
            4 => vec![send(STILL, &[9])],
            _ => vec![send(0, &[8; 20])],
        }
    };
    let mut all = Vec::new();
    for a in 0..6 {
        for b in 0..6 {
            for end in 0..3 {
                let mut calls = vec![stamped(0, 7, &[1, 2])];
                calls.extend(faulty(a, false));
                calls.extend(faulty(b, true));
                match end {
                    0 => calls.push(send(EOF, &[3])),
                    1 => calls.push(send(FID | EOF, &[4])),
                    _ => {}
                }
                calls.push(Call::Close);
                all.push(session(8, 64, 10, calls));
            }
        }
    }
    // In one transfer: a gap before it, D6, another stamp, too much data, D5, each with and without, with EOF and without, as the frame's first or not.
    for bits in 0..128u8 {
        let on = |n: u8| bits >> n & 1 == 1;
        let mut calls = Vec::new();
        if on(5) {
            calls.push(stamped(0, 7, &[1]));
        }
        if on(0) {
            calls.push(Call::Lost);
        }
        let flags = if on(1) { ERROR } else { 0 } | if on(4) { EOF } else { 0 } | if on(6) { STILL } else { 0 };
        let data = if on(3) { vec![2; 20] } else { vec![3] };
        calls.push(stamped(flags, if on(2) { 8 } else { 7 }, &data));
        calls.push(send(FID | EOF, &[9]));
        calls.push(Call::Close);
        all.push(session(8, 64, 10, calls));
    }
    all
}

/// Stills among the film, and frames whose bit is mixed.
fn stills() -> Vec<Case> {
    let mut all = Vec::new();
    let mut add = |calls: Vec<Call>| {
        all.push(session(8, 32, 12, calls.clone()));
        let mut closed = calls;
        closed.push(Call::Close);
        all.push(session(8, 32, 12, closed));
    };
    // Delivered, of several transfers, empty, under way, cut, long, with a gap before it or within, with an error, with two stamps.
    add(vec![send(STILL | EOF, &[1])]);
    add(vec![send(STILL, &[1, 2]), send(STILL, &[]), send(STILL | EOF, &[3])]);
    add(vec![send(STILL | EOF, &[])]);
    add(vec![send(STILL, &[1])]);
    add(vec![send(STILL, &[1]), send(FID | EOF, &[2])]);
    add(vec![send(STILL | EOF, &[1; 8])]);
    add(vec![send(STILL | EOF, &[1; 9])]);
    add(vec![Call::Lost, send(STILL | EOF, &[1])]);
    add(vec![send(STILL, &[1]), Call::Transfer(vec![2]), send(STILL | EOF, &[2])]);
    add(vec![send(STILL | EOF | ERROR, &[1])]);
    add(vec![stamped(STILL, 5, &[1]), stamped(STILL | EOF, 6, &[2])]);
    add(vec![send(STILL, &[1]), stamped(STILL | EOF, 6, &[2])]);
    // D5 of a stray and of an unreadable transfer is ignored; so is that of a frame's neighbours.
    add(vec![send(EOF, &[1]), send(STILL, &[2]), send(FID | EOF, &[3])]);
    add(vec![send(STILL | EOF, &[1]), send(0, &[2]), send(FID | STILL | EOF, &[3])]);
    add(vec![send(0, &[1]), Call::Transfer(vec![2, STILL]), send(EOF, &[2])]);
    add(vec![send(EOF, &[1]), send(FID | STILL | EOF, &[2]), send(EOF, &[3])]);
    // Mixed: the bit differs from the first transfer's, in the second or a later one, and whether or not it turns back.
    for first in [0, STILL] {
        let other = STILL ^ first;
        add(vec![send(first, &[1]), send(other | EOF, &[2])]);
        add(vec![send(first, &[1]), send(first, &[2]), send(other, &[3]), send(other | EOF, &[4])]);
        add(vec![send(first, &[1]), send(other, &[2]), send(first | EOF, &[3]), send(FID | first | EOF, &[4])]);
        add(vec![send(first, &[]), send(other | EOF, &[])]);
        add(vec![send(first, &[1]), send(other, &[2])]);
        add(vec![send(first, &[1]), send(other, &[2]), send(FID | EOF, &[3])]);
        add(vec![send(first, &[1]), send(other, &[2]), Call::Lost, send(first | EOF, &[3])]);
        add(vec![send(first, &[1]), Call::Lost, send(other, &[2]), send(first | EOF, &[3])]);
        add(vec![send(first, &[1; 8]), send(other | EOF, &[2])]);
        add(vec![send(first, &[1; 9]), send(other | EOF, &[2])]);
        add(vec![send(first, &[1]), send(other | EOF | ERROR, &[2; 9])]);
        add(vec![stamped(first, 5, &[1]), stamped(other | EOF, 6, &[2; 9])]);
    }
    // A still ends no step, starts none and is not untimed.
    for (a, b, c) in [(10, 50, 30), (10, 5, 30), (0, 0x8000_0000, 0x7FFF_FFFF), (30, 20, 10)] {
        add(vec![stamped(EOF, a, &[1]), stamped(FID | STILL | EOF, b, &[2]), stamped(EOF, c, &[3])]);
        add(vec![stamped(STILL | EOF, a, &[1]), stamped(FID | EOF, b, &[2]), stamped(STILL | EOF, c, &[3])]);
        add(vec![stamped(EOF, a, &[1]), send(FID | STILL | EOF, &[2]), stamped(EOF, c, &[3])]);
        add(vec![stamped(STILL | EOF, a, &[1]), stamped(FID | STILL | EOF, b, &[2]), stamped(EOF, c, &[3])]);
    }
    all
}

/// Cameras that send no EOF: D1 of the framing byte is clear.
fn no_eof() -> Vec<Case> {
    let mut all = Vec::new();
    let turn = || send(FID, &[7]);
    // Only D1 counts.
    for framing in [0, 1, 2, 3, 4, 5, 0xFC, 0xFD, 0xFE, 0xFF] {
        all.push(framed(8, 32, framing, 12, vec![send(0, &[1]), send(EOF, &[2]), turn(), turn(), send(0, &[3])]));
    }
    // After a hand-out every kind of call: the same transfer, another of that FID, the old FID, unreadable, lost, idle, and the next frame after it.
    let kinds = || {
        vec![
            turn(),
            send(FID, &[8, 9]),
            send(FID | ERROR, &[8]),
            send(FID | EOF, &[8]),
            send(0, &[5]),
            send(EOF | ERROR, &[5; 20]),
            Call::Transfer(vec![2]),
            Call::Transfer(vec![2, FID]),
            Call::Lost,
            Call::Transfer(vec![]),
            Call::Close,
        ]
    };
    for next in kinds() {
        for last in kinds() {
            all.push(framed(8, 32, 1, 12, vec![send(0, &[1]), turn(), next.clone(), last, turn(), send(0, &[3]), send(0, &[3])]));
        }
    }
    // With D1 set nothing of it changes.
    let mut add = |calls: Vec<Call>| {
        all.push(framed(8, 32, 1, 12, calls.clone()));
        let mut closed = calls;
        closed.push(Call::Close);
        all.push(framed(8, 32, 1, 12, closed.clone()));
        all.push(framed(8, 32, 3, 12, closed));
    };
    for next in kinds() {
        add(vec![send(0, &[1]), send(0, &[2]), turn(), next.clone()]);
        add(vec![send(0, &[1]), turn(), next.clone(), turn(), send(FID, &[6]), send(0, &[4]), send(0, &[4])]);
    }
    // A frame that is dropped where the FID turns needs no second offer: each fault, and empty. At close it is cut, unless a fault names it.
    for first in [
        vec![send(ERROR, &[1])],
        vec![Call::Lost, send(0, &[1])],
        vec![send(0, &[1]), Call::Lost],
        vec![send(0, &[1]), Call::Transfer(vec![2])],
        vec![stamped(0, 5, &[1]), stamped(0, 6, &[2])],
        vec![send(0, &[1]), send(STILL, &[2])],
        vec![send(0, &[1; 9])],
        vec![send(0, &[])],
        vec![send(EOF, &[]), send(0, &[])],
        vec![send(0, &[]), Call::Transfer(vec![])],
    ] {
        let mut calls = first.clone();
        add(calls.clone());
        calls.extend([turn(), turn(), send(0, &[3]), send(0, &[3])]);
        add(calls);
    }
    // EOF is ignored: the frame goes on after it, and a gap after it is the frame's.
    add(vec![send(EOF, &[1]), send(EOF, &[2]), turn(), turn()]);
    add(vec![send(EOF, &[1]), Call::Lost, send(0, &[2]), turn()]);
    add(vec![send(EOF, &[]), turn(), turn()]);
    // Stills, stamps and steps of frames that are handed out; just as long as the frame size.
    add(vec![send(STILL, &[1]), send(FID, &[2]), send(FID, &[2]), send(0, &[3])]);
    add(vec![
        stamped(0, 10, &[1]),
        stamped(FID, 42, &[2]),
        stamped(FID, 42, &[2]),
        stamped(0, 37, &[3]),
        stamped(0, 37, &[3]),
        stamped(FID, 9, &[4]),
    ]);
    add(vec![send(0, &[1]), stamped(0, 5, &[2; 7]), send(FID, &[3]), send(FID, &[3; 8]), send(0, &[4]), send(0, &[4])]);
    // The sample of request Two's readings.
    let sample = vec![
        send(0, &[0xAA]),
        send(EOF, &[0xBB]),
        send(FID, &[0xCC]),
        send(FID, &[0xCC]),
        send(0, &[0xDD]),
        Call::Lost,
        send(0, &[0xDD]),
        send(0, &[0x11]),
        send(FID, &[]),
        send(0, &[]),
        send(0, &[0xEE]),
        Call::Close,
    ];
    all.push(framed(256, 62, 1, 256, sample));
    all
}

/// The errors that earlier boxes made with transfers; the two with loops stand among the sources.
fn earlier_boxes() -> Vec<Case> {
    vec![
        // Subtracting stamps and clamping at zero.
        session(8, 32, 8, vec![stamped(EOF, 0xFFFF_FFF0, &[1]), stamped(FID | EOF, 0x10, &[2]), stamped(EOF, 0x08, &[3])]),
        session(8, 32, 8, vec![stamped(EOF, 100, &[1]), stamped(FID | EOF, 50, &[2]), stamped(EOF, 60, &[3])]),
        // Joining data after EOF to the next frame because FID is unchanged.
        session(8, 32, 8, vec![send(0, &[1]), send(EOF, &[2]), send(0, &[3]), send(EOF, &[4]), send(FID, &[5]), send(FID | EOF, &[6])]),
        // Skipping an unreadable transfer without spoiling its neighbours.
        session(
            8,
            32,
            8,
            vec![
                send(0, &[1]),
                Call::Transfer(vec![2, 0]),
                send(EOF, &[2]),
                Call::Transfer(vec![9, 0x80]),
                send(FID | EOF, &[3]),
                send(EOF, &[4]),
            ],
        ),
        session(8, 32, 8, vec![send(0, &[1]), Call::Transfer(vec![1]), send(FID, &[2]), Call::Lost, Call::Close]),
    ]
}

/// 45 to 47, and what a refused opening leaves.
fn openings() -> Vec<Case> {
    let mut all = Vec::new();
    for (frame, payload, room) in [
        (0, 20, 10),
        (1, 20, 1),
        (1, 20, 0),
        (10, 20, 9),
        (10, 20, 10),
        (16_777_216, 20, 64),
        (16_777_217, 20, 64),
        (u32::MAX, 20, 64),
        (10, 0, 10),
        (10, 1, 10),
        (10, 2, 10),
        (10, 65_536, 10),
        (10, 65_537, 10),
        (0, 0, 0),
        (10, 0, 9),
        (70_000, 65_536, 70_000),
        (70_001, 65_536, 70_000),
    ] {
        let calls =
            vec![send(0, &[]), send(0, &[1, 2]), Call::Lost, Call::Transfer(vec![]), Call::Close, Call::Close, Call::Transfer(vec![0; 70])];
        let opening = Opening { frame: frame as usize, payload: payload as usize, framing: 3, kind: HeaderKind::Old };
        all.push(Case::Calls { opening, buffer: vec![0xAA; room], calls: calls.clone() });
        all.push(session(frame, payload, room, calls));
    }
    all
}

/// Frames in a room that is too large to be stored: as long as the frame size, and a byte longer; the largest frame size with both kinds of header, handed
/// out and ended by EOF; 45, 47 and 51 around it.
pub fn rooms() -> Vec<Case> {
    let room = |kind: HeaderKind, frame: usize, framing: u8, room: usize, calls: Vec<Call>| {
        let opening = Opening { frame, payload: 65_536, framing, kind };
        Case::Room { opening, room, calls }
    };
    let most = 16_777_216;
    let of = |kind: HeaderKind, flags: u8, data: &[u8]| match kind {
        HeaderKind::Old => send(flags, data),
        HeaderKind::Vp8 => Call::Transfer(vp8([PTS | flags, 0, END], 7, 0, 0, data)),
    };
    // A frame of so many bytes in transfers of 65,520.
    let frame = |kind: HeaderKind, fid: u8, bytes: usize| -> Vec<Call> {
        let mut calls: Vec<Call> = (0..bytes / 65_520).map(|i| of(kind, fid, &[i as u8; 65_520])).collect();
        calls.push(of(kind, fid | EOF, &vec![0x55; bytes % 65_520]));
        calls
    };
    let mut all = vec![
        room(HeaderKind::Old, most, 3, most, [frame(HeaderKind::Old, 0, most), vec![Call::Lost]].concat()),
        room(HeaderKind::Old, most, 3, most, frame(HeaderKind::Old, FID, most + 1)),
        room(HeaderKind::Vp8, most, 1, most + 84, [frame(HeaderKind::Vp8, 0, most), vec![of(HeaderKind::Vp8, FID, &[1]); 2]].concat()),
    ];
    for kind in HeaderKind::ALL {
        for framing in [1, 3] {
            for bytes in [99_999, 100_000, 100_001] {
                let turn = of(kind, FID, &[9; 65_000]);
                let tail = vec![turn.clone(), turn, of(kind, FID | EOF, &[8; 35_000]), Call::Close];
                all.push(room(kind, 100_000, framing, 100_002, [frame(kind, 0, bytes), tail].concat()));
            }
        }
    }
    let few = vec![send(0, &[1, 2, 3]), Call::Lost, send(EOF, &[4]), send(FID, &[5; 65_000]), send(FID | EOF, &[6]), Call::Close];
    for (size, length) in [(most, most - 1), (most, most), (most, most + 84), (most + 1, most + 84), (1, 1), (64, 64), (65, 65), (0, 0)] {
        for n in [0, 3, 4, 5, 6] {
            all.push(room(HeaderKind::Old, size, 3, length, few[..n].to_vec()));
        }
    }
    all
}
