//! Random probe blocks.

use crate::making::blocks;
use crate::making::cases::Case;
use crate::making::chance::Random;
use crate::making::random::streaming::interval;
use crate::reading::control::Revision;

fn size_near(r: &mut Random, edges: &[u32]) -> u32 {
    match r.below(4) {
        0 => r.next() as u32,
        1 => r.pick(edges).wrapping_add(r.below(3) as u32).wrapping_sub(1),
        _ => 2 + r.below(60_000) as u32,
    }
}

pub fn probe(r: &mut Random, revision: Revision, offered: &[u32]) -> Vec<u8> {
    let format = if r.once_in(5) { r.below(11) } else { 1 + r.below(2) } as u8;
    let frame = if r.once_in(5) { r.below(70) } else { 1 + r.below(2) } as u8;
    let interval = if r.once_in(6) { interval(r) } else { r.pick(offered) };
    let frame_size = size_near(r, &[0, 1, 16_777_216]);
    let payload_size = size_near(r, &[0, 2, 65_536]);
    let mut p = blocks::probe(format, frame, interval, frame_size, payload_size);
    p.truncate(if r.once_in(10) { r.pick(&[26, 34, 48]) } else { revision.probe() });
    if r.once_in(10) {
        let n = r.below(64);
        p.resize(n, 0x77);
    }
    p
}

pub fn write(r: &mut Random) -> Case {
    let revision = r.pick(&Revision::ALL);
    let n = if r.once_in(4) { r.below(65) } else { revision.probe() };
    let m = if r.once_in(4) { r.below(65) } else { revision.probe() + r.below(17) };
    Case::Write(revision, r.bytes(n), r.bytes(m))
}
