//! Random control blocks, well-formed and damaged.

use crate::making::blocks::{self, CONTROL_TOTAL};
use crate::making::chance::Random;
use crate::making::random::damage::damage;
use crate::reading::control::Revision;

fn unknown(r: &mut Random) -> Vec<u8> {
    let subtype = 8 + r.below(248) as u8;
    let n = r.below(9);
    let rest = r.bytes(n);
    blocks::descriptor(subtype, &rest)
}

/// A control block: units draw on what was made before them, so that chains end; then now and then anything.
pub fn control(r: &mut Random) -> Vec<u8> {
    let n = match r.below(12) {
        0 => 30 + r.below(4),
        1 => 0,
        _ => 1 + r.below(8),
    };
    let mut ids: Vec<u8> = if r.once_in(3) { (1..=255).collect() } else { (1..=40).collect() };
    if r.once_in(3) {
        let first = r.below(ids.len());
        ids.rotate_left(first);
    }
    if r.once_in(3) {
        r.shuffle(&mut ids);
    }
    let revision = if r.once_in(2) { Revision::New15 } else { r.pick(&Revision::ALL) };
    // Now and then a control size that another revision has.
    let size = |r: &mut Random| match r.below(12) {
        0 => r.pick(&[0, 3, 31, 32, 33, 64]),
        1 => r.below(40),
        _ if revision == Revision::New15 => 3,
        _ => r.below(6),
    };
    let wild = r.once_in(4);
    let mut made: Vec<u8> = Vec::new();
    let mut all: Vec<Vec<u8>> = Vec::new();
    for i in 0..n {
        let id = if r.once_in(60) { r.pick(&[0, ids[0]]) } else { ids[i] };
        let source = |r: &mut Random| {
            if made.is_empty() || (wild && r.once_in(4)) {
                if r.once_in(6) {
                    r.byte()
                } else {
                    ids[r.below(n)]
                }
            } else {
                r.pick(&made)
            }
        };
        let kind = if i == 0 { 2 } else { r.below(8) };
        let pins = |r: &mut Random| match r.below(20) {
            0 => r.pick(&[0, 16, 17]),
            _ => 1 + r.below(4),
        };
        let d = match kind {
            0 | 3 => {
                let from = source(r);
                let terminal = r.pick(&[0x0101, 0x0101, 0x0101, 0x0301, 0x0100]);
                blocks::output(id, terminal, from)
            }
            1 | 2 if r.once_in(2) => {
                let k = size(r);
                let controls = r.bytes(k);
                blocks::camera_of(id, &controls)
            }
            1 | 2 => {
                let k = r.below(5);
                let more = r.bytes(k);
                blocks::input(id, r.pick(&[0x0401, 0x0200, 0x0202]), &more)
            }
            4 => {
                let sources: Vec<u8> = (0..pins(r)).map(|_| source(r)).collect();
                blocks::selector(id, &sources)
            }
            5 => {
                let k = size(r);
                let controls = r.bytes(k);
                let of = if r.once_in(20) { r.pick(&Revision::ALL) } else { revision };
                blocks::processing_of(of, id, source(r), &controls)
            }
            6 => {
                let sources: Vec<u8> = (0..pins(r)).map(|_| source(r)).collect();
                let k = r.below(4);
                let controls = r.bytes(k);
                blocks::extension(id, &sources, &controls)
            }
            // An older camera has none, and the number is unknown there: seldom a source.
            _ => blocks::encoding(id, source(r)),
        };
        if kind != 0 && kind != 3 && (kind != 7 || revision == Revision::New15 || r.once_in(10)) {
            made.push(id);
        }
        all.push(d);
        if r.once_in(8) {
            all.push(unknown(r));
        }
    }
    if r.once_in(3) {
        r.shuffle(&mut all);
    }
    let k = r.below(4);
    let interfaces = r.bytes(k);
    blocks::control_of(revision, r.next() as u32, &interfaces, &all)
}

pub fn maybe_damaged_control(r: &mut Random) -> Vec<u8> {
    let mut block = control(r);
    if r.once_in(2) {
        damage(r, &mut block, CONTROL_TOTAL);
    }
    block
}

/// A control block whose output terminal with ID 9 is one that a streaming block can name.
pub fn linked_control(r: &mut Random) -> Vec<u8> {
    if r.once_in(12) {
        return maybe_damaged_control(r);
    }
    let terminal = if r.once_in(20) { 0x0301 } else { 0x0101 };
    let revision = r.pick(&Revision::ALL);
    let k = if revision == Revision::New15 { 3 } else { r.below(33) };
    let controls = r.bytes(k);
    let unit = blocks::processing_of(revision, 2, 1, &controls);
    let mut all = vec![blocks::camera_of(1, &controls), unit, blocks::output(9, terminal, 2)];
    r.shuffle(&mut all);
    blocks::control_of(revision, 27_000_000, &[1], &all)
}
