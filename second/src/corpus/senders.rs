//! Senders with their receivers: 80 to 82, frames around multiples of what a transfer holds, and receivers that are opened otherwise.

use crate::making::cases::Case;
use crate::reading::frames::{HeaderKind, Opening};
use crate::reading::sender::{Frame, Pair};

pub fn all() -> Vec<Case> {
    let mut all = lengths();
    all.extend(refused());
    all.extend(rooms());
    all.extend(places());
    all.extend(receivers());
    all
}

/// A frame of so many bytes, no two neighbours of which are equal.
fn frame(n: usize, stamp: Option<u32>) -> Frame {
    Frame { stamp, bytes: (0..n).map(|i| (7 * i + i / 256 + 1) as u8).collect() }
}

/// Frames one after the other, and a receiver that is opened as the claim says it.
fn pair(payload: u32, room: usize, frames: Vec<Frame>) -> Pair {
    let longest = frames.iter().map(|f| f.bytes.len()).max().unwrap_or(0).max(1);
    let opening = Opening { frame: longest, payload: payload as usize, framing: 3, kind: HeaderKind::Old };
    let frames = frames.into_iter().enumerate().map(|(i, f)| (i > 0, f)).collect();
    Pair { opening, buffer: longest, payload, room, frames }
}

/// Around one full transfer and two, and three full ones, with a stamp, without, and by turns.
fn lengths() -> Vec<Case> {
    let mut all = Vec::new();
    let mut add = |payload: usize, stamp: &dyn Fn(usize) -> Option<u32>| {
        let data = |i: usize| payload - if stamp(i).is_some() { 6 } else { 2 };
        let around = [(1, 0), (1, 1), (1, 2), (2, 0), (3, 1), (0, 2)];
        let length = |i: usize| (around[i].0 * data(i) + around[i].1 - 1).max(1);
        let frames = (0..around.len()).map(|i| frame(length(i), stamp(i))).collect();
        all.push(Case::Sent(pair(payload as u32, payload, frames)));
    };
    add(3, &|_| None);
    add(7, &|_| None);
    // Steps forward, backward and none.
    add(7, &|i| Some([0x0102_0304, 0xFFFF_FFFF, 5, 0x8000_0004, 4, 4][i]));
    add(20, &|i| Some(100 * i as u32).filter(|_| i % 2 == 1));
    add(8, &|i| Some(100 * i as u32).filter(|_| i % 3 == 0));
    for (stamp, header) in [(None, 2), (Some(9), 6)] {
        let full = 65_536 - header;
        all.push(Case::Sent(pair(65_536, 65_536, vec![frame(full, stamp), frame(full + 1, stamp)])));
        all.push(Case::Sent(pair(65_536, 65_600, vec![frame(70_000, stamp), frame(full - 1, stamp)])));
    }
    all.push(Case::Sent(pair(20, 20, vec![])));
    all
}

/// 80 and 81, each before what comes after it, with a stamp and without.
fn refused() -> Vec<Case> {
    let mut all = Vec::new();
    for (payload, room) in [(0, 0), (2, 0), (2, 100), (3, 100), (6, 100), (7, 100), (7, 0), (65_536, 100), (65_537, 100), (u32::MAX, 100)] {
        let mut it = pair(payload, room, [None, Some(7)].iter().flat_map(|&s| [frame(0, s), frame(2, s)]).collect());
        it.opening.payload = 100;
        all.push(Case::Sent(it.clone()));
        // A sender that does not go on after a frame that was refused: the next one has its FID.
        if (3..=6).contains(&payload) {
            it.frames[1].0 = false;
            it.frames[3].0 = false;
            all.push(Case::Sent(it));
        }
    }
    all
}

/// 82: the room is just enough, or by one too small, for a full transfer and for a last one that is not full.
fn rooms() -> Vec<Case> {
    let mut all = Vec::new();
    for (stamp, header) in [(None, 2), (Some(3), 6)] {
        let frames = [10, 13, 3, 1].map(|n| frame(n, stamp)).to_vec();
        for room in [0, header + 1, header + 3, header + 9, header + 10] {
            all.push(Case::Sent(pair(header as u32 + 10, room, frames.clone())));
        }
    }
    all
}

/// Where the sender does not go on to a next frame: it is after the last of the same frame and of a shorter one, before 82 and behind 80 and 81; of a longer
/// one it sends what lies behind its place. And where it goes on before its first frame, which then has FID 1.
fn places() -> Vec<Case> {
    let mut all = Vec::new();
    for (payload, room, next) in [(10, 5, false), (10, 10, true), (5, 5, false)] {
        let more = [(3, None), (3, Some(1)), (2, Some(2)), (0, None), (4, None), (4, Some(3)), (20, None), (20, Some(4)), (40, Some(5))];
        let mut it = pair(payload, room, vec![frame(40, None)]);
        it.frames = vec![(next, frame(3, None))];
        it.frames.extend(more.map(|(n, stamp)| (false, frame(n, stamp))));
        it.frames.extend([(true, frame(2, None)), (true, frame(3, None))]);
        all.push(Case::Sent(it));
    }
    all
}

/// Receivers of another payload size, frame size, framing or header kind; ones whose opening is refused, and one whose room is longer than its frames.
fn receivers() -> Vec<Case> {
    let it = pair(12, 12, vec![frame(8, None), frame(20, Some(9)), frame(1, Some(7))]);
    let mut all = Vec::new();
    let mut add = |opening: Opening, buffer: usize| all.push(Case::Sent(Pair { opening, buffer, ..it.clone() }));
    for frame in [0, 8, 19, 21] {
        add(Opening { frame, ..it.opening }, 21);
    }
    for payload in [1, 11] {
        add(Opening { payload, ..it.opening }, 20);
    }
    for framing in [1, 2] {
        add(Opening { framing, ..it.opening }, 20);
    }
    add(Opening { kind: HeaderKind::Vp8, ..it.opening }, 20);
    for buffer in [19, 70_000] {
        add(it.opening, buffer);
    }
    all
}
