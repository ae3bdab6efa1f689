//! Session records as they stand: 50 to 53 and 55.

use crate::making::cases::Case;
use crate::making::transfers::*;
use crate::reading::flags::*;
use crate::reading::frames::{Call, HeaderKind};
use crate::reading::records::{laid, Phase, Record, FAULTS};

pub fn plain_record() -> Record {
    Record {
        frame: 8,
        payload: 32,
        framing: 3,
        kind: HeaderKind::Old,
        closed: false,
        taken: 10,
        phase: Phase::Fresh,
        gap: false,
        numbers: [0; 31],
        last: None,
    }
}

/// 50, and 53, 52, 51, 55 in their order.
pub fn all() -> Vec<Case> {
    let mut all = Vec::new();
    let good = transfer(END, 0, 0, &[1, 2, 3]);
    let long = vec![2; 65_537];
    let mut add = |r: &Record, room: usize, t: &[u8]| all.push(Case::Forged(r.clone(), vec![0xAA; room], t.to_vec()));
    // Each number at its limit and past it.
    for i in 0..31 {
        for taken in [0u32, 10, u32::MAX] {
            let n = u64::from(taken);
            let most = match i {
                i if i < 26 && i % 2 == 1 => n * 65_536,
                28 => n << 31,
                _ => n,
            };
            for value in [most, most + 1] {
                let mut r = Record { taken, ..plain_record() };
                r.numbers[i] = value;
                add(&r, 8, &good);
            }
        }
    }
    for frame in [0, 1, 8, 16_777_216, 16_777_217, 1 << 32, u64::MAX] {
        add(&Record { frame, ..plain_record() }, 8, &good);
    }
    for payload in [0, 1, 2, 5, 65_536, 65_537, (1 << 32) + 32, u64::MAX] {
        add(&Record { payload, ..plain_record() }, 8, &good);
    }
    // A frame under way: fill and bytes, with every fault and without.
    for fault in [0].into_iter().chain(FAULTS) {
        for (bytes, fill) in [
            (0, 0),
            (5, 5),
            (6, 6),
            (8, 8),
            (9, 9),
            (5, 4),
            (4, 5),
            (100, 8),
            (100, 9),
            (655_360, 3),
            (655_361, 3),
            (u64::MAX, 8),
            (u64::MAX, u64::MAX),
        ] {
            for fid in [false, true] {
                for gap in [false, true] {
                    let phase = Phase::Under { fid, fault, bytes, fill, stamp: None, still: false, layer: None };
                    add(&Record { phase, gap, ..plain_record() }, 9, &good);
                }
            }
        }
    }
    for stamp in [None, Some(7), Some(8)] {
        for flags in [0, FID, ERROR, EOF, FID | ERROR] {
            let phase = Phase::Under { fid: false, fault: 0, bytes: 2, fill: 2, stamp, still: false, layer: None };
            add(&Record { phase, ..plain_record() }, 9, &transfer(END | PTS | flags, 7, 0, &[1, 2]));
        }
    }
    // The still bit of the frame under way and that of the transfer; another FID begins a frame of its own bit.
    for still in [false, true] {
        for flags in [0, STILL, FID, FID | STILL, STILL | EOF, EOF] {
            for fault in [0, 3] {
                let phase = Phase::Under { fid: false, fault, bytes: 2, fill: 2, stamp: None, still, layer: None };
                add(&Record { phase, ..plain_record() }, 9, &transfer(END | flags, 0, 0, &[1, 2]));
            }
        }
    }
    add(
        &Record {
            taken: 0,
            phase: Phase::Under { fid: false, fault: 0, bytes: 0, fill: 0, stamp: None, still: false, layer: None },
            ..plain_record()
        },
        8,
        &good,
    );
    for fid in [false, true] {
        for gap in [false, true] {
            add(&Record { phase: Phase::Past(fid), gap, ..plain_record() }, 8, &good);
        }
    }
    add(&Record { gap: true, ..plain_record() }, 8, &good);
    // A frame under way and a transfer of its FID or the other, with D1 of the framing byte set and clear; no framing breaks 50.
    for framing in [0, 1, 2, 3, 0xFD, 0xFE, 0xFF] {
        for (fault, bytes) in [(0, 0), (0, 2), (1, 2), (6, 2)] {
            for flags in [0, FID, FID | EOF, EOF] {
                for still in [false, true] {
                    let phase = Phase::Under { fid: false, fault, bytes, fill: bytes, stamp: Some(7), still, layer: None };
                    add(&Record { framing, phase, ..plain_record() }, 9, &transfer(END | flags, 0, 0, &[1, 2]));
                }
            }
        }
        let phase = Phase::Under { fid: false, fault: 0, bytes: 2, fill: 2, stamp: None, still: false, layer: None };
        // Nothing is handed out for what is idle or unreadable, nor where the call is refused: 52 comes first.
        for t in [&[][..], &[2][..], &[2, FID][..]] {
            add(&Record { framing, phase: phase.clone(), ..plain_record() }, 9, t);
        }
        add(&Record { framing, phase: phase.clone(), taken: u32::MAX, ..plain_record() }, 9, &transfer(END | FID, 0, 0, &[1]));
        add(&Record { framing, phase: phase.clone(), closed: true, ..plain_record() }, 9, &transfer(END | FID, 0, 0, &[1]));
        add(&Record { framing, phase, ..plain_record() }, 7, &transfer(END | FID, 0, 0, &[1]));
        add(&Record { framing, phase: Phase::Past(false), ..plain_record() }, 9, &transfer(END | FID, 0, 0, &[1]));
    }
    // Which of several refusals is given.
    for closed in [false, true] {
        for taken in [10, u32::MAX - 1, u32::MAX] {
            for frame in [0, 8] {
                for room in [7, 8] {
                    add(&Record { closed, taken, frame, ..plain_record() }, room, &good);
                    add(&Record { closed, taken, frame, ..plain_record() }, room, &[]);
                }
            }
        }
        add(&Record { closed, ..plain_record() }, 8, &long);
        add(&Record { closed, ..plain_record() }, 7, &long);
    }
    add(&plain_record(), 8, &long[..65_536]);
    add(&plain_record(), 7, &[]);
    all.extend(from());
    all
}

/// Lists of calls from records on: every phase and fault with each call, and what no list from an opening leads to, as a gap flag beside a frame without fault.
fn from() -> Vec<Case> {
    let mut phases = vec![Phase::Fresh, Phase::Past(false), Phase::Past(true)];
    for fault in [0].into_iter().chain(FAULTS) {
        for (bytes, fill) in [(0, 0), (3, 3), (5, 3)] {
            if (fault == 0) == (bytes == fill) {
                let (stamp, layer) = (Some(7).filter(|_| bytes != 3), Some(0x1234).filter(|_| fault != 0));
                for still in [false, true] {
                    phases.push(Phase::Under { fid: false, fault, bytes, fill, stamp, still, layer });
                }
            }
        }
    }
    let lists: Vec<Vec<Call>> = vec![
        vec![Call::Transfer(transfer(END | FID, 0, 0, &[1, 2]))],
        vec![Call::Transfer(transfer(END | PTS | EOF, 7, 0, &[4])), Call::Transfer(transfer(END | PTS | FID | EOF, 40, 0, &[5]))],
        vec![Call::Transfer(transfer(END | STILL, 0, 0, &[6])), Call::Transfer(vec![])],
        vec![Call::Transfer(transfer(END, 0, 0, &[6])), Call::Transfer(transfer(END | FID | PTS, 9, 0, &[7])), Call::Close],
        vec![Call::Lost],
        vec![Call::Transfer(vec![2]), Call::Close, Call::Lost],
        vec![Call::Close],
    ];
    let mut all = Vec::new();
    let mut add = |r: Record, room: usize, calls: &[Call]| all.push(Case::From(r, vec![0xAA; room], calls.to_vec()));
    for phase in &phases {
        for gap in [false, true] {
            for framing in [1, 3] {
                let last = if gap { Some(10) } else { None };
                for calls in &lists {
                    add(Record { phase: phase.clone(), gap, framing, last, ..plain_record() }, 9, calls);
                }
            }
        }
    }
    // Refused by each number, which changes nothing; and taken until no more can be.
    let phase = Phase::Under { fid: true, fault: 0, bytes: 3, fill: 3, stamp: Some(5), still: false, layer: Some(6) };
    let held = Record { phase, gap: true, last: Some(9), numbers: std::array::from_fn(|i| i as u64 % 10), ..plain_record() };
    for calls in &lists {
        add(Record { frame: 0, ..held.clone() }, 9, calls);
        add(Record { taken: 8, ..held.clone() }, 9, calls);
        add(Record { closed: true, ..held.clone() }, 9, calls);
        add(Record { closed: true, gap: false, ..held.clone() }, 9, calls);
        add(Record { taken: u32::MAX, ..held.clone() }, 9, calls);
        add(Record { taken: u32::MAX - 1, ..held.clone() }, 9, calls);
        add(held.clone(), 7, calls);
        add(held.clone(), 8, calls);
    }
    add(held.clone(), 8, &[Call::Transfer(vec![2; 65_537]), Call::Lost]);
    all.extend(lent(&held));
    all
}

/// Ledgers as records that are lent: 54 by length and by each byte of the rest, before 50; each call; what stands in the places of the frame under way.
fn lent(held: &Record) -> Vec<Case> {
    let mut all = Vec::new();
    let good = Call::Transfer(transfer(END | FID | PTS | EOF, 5, 0, &[1, 2, 3]));
    let other = Call::Transfer(transfer(END, 0, 0, &[4]));
    let mut add = |bytes: &[u8], r: &Record, room: usize, call: &Call| {
        all.push(Case::Lent(bytes.to_vec(), r.clone(), vec![0xAA; room], call.clone()))
    };
    let bytes = laid(&held.numbers);
    for call in [&good, &other, &Call::Lost, &Call::Close] {
        for framing in [1, 3] {
            add(&bytes, &Record { framing, ..held.clone() }, 9, call);
        }
        add(&laid(&[]), &plain_record(), 9, call);
        // Any numbers in the places of the frame under way, and numbers that use all eight bytes.
        let mut odd = bytes.clone();
        odd[144..160].fill(0xFF);
        add(&odd, held, 9, call);
        let large = laid(&std::array::from_fn::<u64, 31, _>(|i| 0x0102_0304_0506_0708 << (i % 5)));
        add(&large, held, 9, call);
        // 54 before 50, and then each number of the call.
        add(&bytes[..319], held, 9, call);
        add(&[&bytes[..], &[0]].concat(), held, 9, call);
        add(&[], &Record { frame: 0, ..held.clone() }, 9, call);
        add(&with_byte(&bytes, 248), &Record { frame: 0, ..held.clone() }, 9, call);
        add(&with_byte(&bytes, 319), held, 9, call);
        add(&bytes, &Record { frame: 0, ..held.clone() }, 9, call);
        add(&bytes, &Record { closed: true, ..held.clone() }, 9, call);
        add(&bytes, &Record { taken: u32::MAX, ..held.clone() }, 9, call);
        add(&bytes, held, 7, call);
    }
    all
}

fn with_byte(bytes: &[u8], at: usize) -> Vec<u8> {
    let mut b = bytes.to_vec();
    b[at] = 1;
    b
}
