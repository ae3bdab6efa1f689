//! Random records of a session, and calls on them.

use crate::making::cases::Case;
use crate::making::chance::Random;
use crate::making::random::calls::{framing, list, nearly, readable};
use crate::reading::flags;
use crate::reading::frames::{Call, HeaderKind};
use crate::reading::records::{laid, Phase, Record, FAULTS};

/// A record that holds, then mostly with one number at or past an edge.
pub fn record(r: &mut Random) -> Record {
    let taken = r.pick(&[0, 1, 2, 100, 65_537, u32::MAX - 1, u32::MAX]);
    let n = u64::from(taken);
    let frame = 1 + r.below(40) as u64;
    let fill = r.below(frame as usize + 1) as u64;
    let fault = if r.once_in(2) { 0 } else { r.pick(&FAULTS) };
    let stamp = r.pick(&[None, Some(7), Some(8)]);
    let phase = match r.below(4) {
        0 => Phase::Fresh,
        1 => Phase::Past(r.once_in(2)),
        _ => Phase::Under {
            fid: r.once_in(2),
            fault,
            bytes: if fault == 0 { fill } else { fill + r.below(50) as u64 },
            fill,
            stamp,
            still: r.once_in(2),
            layer: r.pick(&[None, Some(0), Some(0x1234), Some(0xFFFF)]),
        },
    };
    let mut numbers = [0; 31];
    for (i, x) in numbers.iter_mut().enumerate() {
        let most = if i == 28 {
            n << 31
        } else if i < 26 && i % 2 == 1 {
            n << 16
        } else {
            n
        };
        *x = r.pick(&[0, 0, most.min(1), most / 2, most]);
    }
    let mut it = Record {
        frame,
        payload: 2 + r.below(60) as u64,
        framing: framing(r),
        kind: r.pick(&HeaderKind::ALL),
        closed: r.once_in(8),
        taken,
        phase,
        gap: r.once_in(3),
        numbers,
        last: r.pick(&[None, Some(1), Some(u32::MAX)]),
    };
    match r.below(10) {
        0..=2 => {
            let i = r.below(31);
            let most = if i == 28 {
                n << 31
            } else if i < 26 && i % 2 == 1 {
                n << 16
            } else {
                n
            };
            it.numbers[i] = r.pick(&[most + 1, most, u64::MAX, 1 << 63, most + 65_536]);
        }
        3 => it.frame = r.pick(&[0, 16_777_216, 16_777_217, u64::MAX, 1 << 32]),
        4 => it.payload = r.pick(&[0, 1, 2, 65_536, 65_537, u64::MAX]),
        5 => {
            if let Phase::Under { bytes, fill, .. } = &mut it.phase {
                match r.below(4) {
                    0 => *fill = it.frame + 1,
                    1 => *fill = r.pick(&[u64::MAX, 0, it.frame]),
                    2 => *bytes = r.pick(&[n << 16, (n << 16) + 1, u64::MAX]),
                    _ => *bytes += 1,
                }
            }
        }
        _ => {}
    }
    it
}

pub fn forged(r: &mut Random) -> Case {
    let it = record(r);
    let room = match r.below(6) {
        0 => (it.frame as usize).saturating_sub(1).min(100),
        _ => (it.frame as usize).min(100) + r.below(4),
    };
    let buffer = r.bytes(room);
    let transfer = match r.below(10) {
        0 => {
            let k = r.below(4);
            r.bytes(k)
        }
        1 if r.once_in(10) => vec![2; 65_536 + r.below(2)],
        2 => nearly(r, it.kind, 7),
        _ => {
            let error = if r.once_in(2) { 0 } else { flags::ERROR };
            let flags = r.byte() & (0x3F | error);
            let k = r.below(20);
            let data = r.bytes(k);
            let stamp = r.pick(&[7, 8]);
            readable(r, it.kind, flags, stamp, &data)
        }
    };
    Case::Forged(it, buffer, transfer)
}

/// A ledger's record, mostly one that 54 does not refuse, with the rest of a session and a call.
pub fn lent(r: &mut Random) -> Case {
    let Case::Forged(it, buffer, transfer) = forged(r) else { unreachable!() };
    let mut bytes = laid(&it.numbers);
    match r.below(12) {
        0 => bytes.truncate(r.below(320)),
        1 => bytes.extend(vec![0; 1 + r.below(40)]),
        2 => bytes[248 + r.below(72)] = 1 + r.below(255) as u8,
        3 => bytes[144..160].copy_from_slice(&r.bytes(16)),
        _ => {}
    }
    let call = match r.below(4) {
        0 => Call::Lost,
        1 => Call::Close,
        _ => Call::Transfer(transfer),
    };
    Case::Lent(bytes, it, buffer, call)
}

/// A list of calls from a record on, which mostly holds.
pub fn from(r: &mut Random, most: usize) -> Case {
    let mut it = record(r);
    while (it.broken() || it.closed) && !r.once_in(10) {
        it = record(r);
    }
    let room = (it.frame as usize).min(100) + r.below(4);
    let buffer = r.bytes(room);
    let calls = list(r, &it.opening(), most.min(40));
    Case::From(it, buffer, calls)
}
