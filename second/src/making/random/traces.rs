//! Random traces, good and bad.

use crate::making::cases::{Case, Traced, SHOWS};
use crate::making::chance::Random;
use crate::making::random::calls::list;
use crate::reading::frames::{Call, Opening};
use crate::reading::traces::{Form, LEDGER, LONG, REPLAY, SHORT};

/// A trace of up to `most` calls and some more, one in two with a bad record.
pub fn trace(r: &mut Random, form: &Form, opening: &Opening, most: usize) -> Vec<u8> {
    let mut calls = list(r, opening, most);
    if form == &LONG {
        calls.iter_mut().for_each(|c| stretch(r, c));
    }
    let fits = |c: &&Call| !matches!(c, Call::Transfer(t) if t.len() > form.most());
    let mut bytes: Vec<u8> = calls.iter().filter(fits).flat_map(|c| form.record(c)).collect();
    if r.once_in(2) {
        spoil(r, form, &mut bytes);
    }
    bytes
}

/// Now and then a transfer is longer than a short record can hold, up to as long as a long one can.
fn stretch(r: &mut Random, call: &mut Call) {
    if let Call::Transfer(t) = call {
        if t.len() > 1 && r.once_in(3) {
            let any = 100 + r.below(2_900);
            let n = r.pick(&[255, 256, 257, 512, 3_071, 3_072, any]);
            t.resize(n.max(t.len()), r.byte());
        }
    }
}

/// Makes one record bad, in one of the ways that the documents name; or sets one behind close, or cuts the trace short.
fn spoil(r: &mut Random, form: &Form, trace: &mut Vec<u8>) {
    let at = r.below(trace.len() / form.size + 1) * form.size;
    if at == trace.len() {
        trace.extend(form.record(&Call::Lost));
    }
    let one = &mut trace[at..at + form.size];
    let long = form == &LONG;
    let some = 1 + r.below(form.most());
    match r.below(10) {
        0 => one[0] = 3 + r.below(253) as u8,
        1 if long => {
            let any = 3_073 + r.below(62_463) as u16;
            one[2..4].copy_from_slice(&r.pick(&[3_073, 3_074, any]).to_le_bytes());
        }
        1 => one[1] = 63 + r.below(193) as u8,
        k @ (2 | 3) => {
            // A transfer of some zeros but for its kind: a length with 1 or 2.
            one.copy_from_slice(&form.record(&Call::Transfer(vec![0; some])));
            one[0] = k as u8 - 1;
        }
        4 => {
            let t = r.below(form.most());
            one.copy_from_slice(&form.record(&Call::Transfer(vec![2; t])));
            one[form.size - 1 - r.below(form.most() - t)] = 1 + r.below(255) as u8;
        }
        5 => one.copy_from_slice(&form.record(&Call::Close)),
        6 => {
            let n = 1 + r.below(form.size - 1);
            let more = vec![r.pick(&[0, 1, 0xFF]); n];
            trace.extend(more);
        }
        7 => trace.truncate(at + r.below(form.size)),
        8 if long => one[1] = 1 + r.below(255) as u8,
        _ => trace.extend([form.record(&Call::Close), vec![0; 1 + r.below(form.size)]].concat()),
    }
}

/// A trace of either form, read with the sizes of a program or others.
pub fn traced(r: &mut Random, most: usize) -> Case {
    let show = r.pick(&SHOWS);
    let long = show.is_some() && r.once_in(2);
    let form = if long { &LONG } else { &SHORT };
    let (frame, payload) = (1 + r.below(60), 20 + r.below(60));
    let opening = match r.below(4) {
        0 => LEDGER,
        1 => REPLAY,
        _ => Opening {
            frame: r.pick(&[1, 8, frame, 300, 3_000, 0, 16_777_216, 16_777_217]),
            payload: r.pick(&[payload, 62, 300, 3_072, 65_536, 1, 65_537]),
            ..LEDGER
        },
    };
    // All that a part holds.
    let mut trace = trace(r, form, &opening, if long { most.min(14) } else { most });
    trace.truncate(70_000);
    let any = 1 + r.below(5_000);
    let read = r.pick(&[1, 7, form.size - 1, form.size, form.size + 1, any, 70_000]);
    Case::Trace(Traced { long, show, frame: opening.frame as u32, payload: opening.payload as u32, read: read as u32, trace })
}
