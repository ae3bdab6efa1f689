//! Random senders.

use crate::making::cases::Case;
use crate::making::chance::Random;
use crate::making::random::calls::framing;
use crate::reading::frames::{HeaderKind, Opening};
use crate::reading::sender::{Frame, Pair};

/// A sender with its receiver: frames around multiples of what a transfer holds.
pub fn sent(r: &mut Random) -> Case {
    let payload = match r.below(12) {
        0 => r.pick(&[0, 1, 2, 6, 65_537, u32::MAX as usize]),
        1 => r.pick(&[3, 7, 65_536]),
        _ => 3 + r.below(60),
    };
    let stamps = r.pick(&[1, 2, 1000]);
    let mut stamp = r.next() as u32;
    let mut frames = Vec::new();
    for i in 0..r.below(6) {
        stamp = stamp.wrapping_add(r.pick(&[0, 1, 3_000, 0x7FFF_FFFF, 0x8000_0000, 0xFFFF_FFFF]));
        let stamp = Some(stamp).filter(|_| r.once_in(stamps));
        let data = payload.saturating_sub(if stamp.is_some() { 6 } else { 2 }).clamp(1, 30_000);
        let n = match r.below(15) {
            0 => 0,
            1 => 1,
            _ => (data * r.below(6) + r.below(3)).saturating_sub(1),
        };
        let bytes = r.bytes(n.min(70_000));
        frames.push(((i > 0) != r.once_in(12), Frame { stamp, bytes }));
    }
    let longest = frames.iter().map(|(_, f)| f.bytes.len()).max().unwrap_or(0);
    let frame = match r.below(8) {
        0 => longest.saturating_sub(1),
        _ => (longest + r.below(3)).clamp(1, 70_000),
    };
    let opening = Opening {
        frame,
        payload: if r.once_in(10) { 2 + r.below(60) } else { payload },
        framing: if r.once_in(10) { framing(r) } else { 3 },
        kind: if r.once_in(20) { HeaderKind::Vp8 } else { HeaderKind::Old },
    };
    let most = payload.min(65_600);
    let room = match r.below(8) {
        0 => most.saturating_sub(1),
        1 => r.below(most + 1),
        2 => (most + r.below(9)).min(65_600),
        _ => most,
    };
    let buffer = (frame + r.below(3)).saturating_sub(usize::from(r.once_in(20))).min(70_000);
    Case::Sent(Pair { opening, buffer, payload: payload as u32, room, frames })
}
