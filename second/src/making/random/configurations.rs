//! Random configurations: a camera's whole descriptors, with what may stand between them, and the same with damage.

use crate::making::blocks;
use crate::making::cases::Case;
use crate::making::chance::Random;
use crate::making::configurations::{endpoint, interface, total, whole};
use crate::making::random::control::linked_control;
use crate::making::random::streaming::{maybe_damaged_streaming, streaming};
use crate::reading::configuration::read;

/// A wMaxPacketSize.
fn packet(r: &mut Random) -> u16 {
    match r.below(6) {
        0 => r.next() as u16,
        1 => r.pick(&[0, 0x07FF, 0x0800, 0x1000, 0x1800, 0x1FFF, 0x13FC, 0x0A80, 0xFFFF, 0xE000]),
        _ => r.pick(&[128, 192, 256, 512, 640, 800, 1020, 0x0A00, 0x1340]),
    }
}

/// A streaming block of one format with one frame.
fn plain(address: u8) -> Vec<u8> {
    let frames = [blocks::mjpeg(1, 1, 1), blocks::frame(7, 1, 640, 480, 614_400, 333_333, 1, &[333_333])];
    blocks::streaming(1, address, 9, 1, &frames)
}

/// What other classes send: stepped over.
fn other(r: &mut Random) -> Vec<Vec<u8>> {
    match r.below(7) {
        0 => vec![vec![8, 0x0B, 0, 2, 0x0E, 3, 0, 0]],
        1 => vec![interface(r.below(4) as u8, 0, 1, 1), blocks::descriptor(1, &[1, 2, 3])],
        2 => vec![interface(r.below(4) as u8, r.below(2) as u8, r.pick(&[3, 0x0E]), r.pick(&[0, 3]))],
        3 => vec![endpoint(0x81, packet(r))],
        4 => vec![vec![2, r.byte() | 0x40]],
        5 => vec![vec![2, 0x24]],
        _ => vec![vec![5, 0x25, 3, 64, 0]],
    }
}

/// A camera's whole configuration.
pub fn configuration(r: &mut Random) -> Vec<u8> {
    let streams = match r.below(16) {
        0 => 0,
        1 => 7 + r.below(3),
        _ => 1 + r.below(3),
    };
    let first = r.pick(&[0, 0, 1, 250]);
    let numbers: Vec<u8> = (0..streams).map(|i| if r.once_in(12) { 1 } else { (first + 1 + i) as u8 }).collect();
    let mut entries = numbers.clone();
    if r.once_in(6) {
        entries.push(r.byte());
    }
    if r.once_in(6) {
        entries.truncate(r.below(entries.len() + 1));
    }
    let mut control = linked_control(r);
    if !r.once_in(10) {
        control = blocks::control(
            48_000_000,
            &entries,
            &[blocks::camera(1, [1, 2, 3]), blocks::processing(2, 1, [4, 5, 6]), blocks::output(9, 0x0101, 2)],
        );
    }
    let mut all: Vec<Vec<u8>> = Vec::new();
    let mut groups: Vec<Vec<Vec<u8>>> = Vec::new();
    for _ in 0..if r.once_in(16) { r.below(3) } else { 1 } {
        let mut group = vec![interface(first as u8, if r.once_in(30) { 1 } else { 0 }, 0x0E, 1), control.clone()];
        if r.once_in(2) {
            group.push(endpoint(0x83, 16));
            group.push(vec![5, 0x25, 3, 16, 0]);
        }
        if r.once_in(10) {
            group.push(blocks::descriptor(9, &[1]));
        }
        groups.push(group);
    }
    for &number in &numbers {
        let block = match r.below(12) {
            0 => maybe_damaged_streaming(r).0,
            1 => streaming(r).0,
            _ => plain(0x80 | r.below(16) as u8),
        };
        let address = if r.once_in(10) { 0x82 } else { *block.get(6).unwrap_or(&0x81) };
        let settings = if r.once_in(30) { 30 + r.below(4) } else { r.below(6) };
        let mut own: Vec<Vec<Vec<u8>>> = vec![vec![interface(number, 0, 0x0E, 2), block]];
        if r.once_in(3) {
            own[0].push(endpoint(address, packet(r)));
        }
        let same = packet(r);
        for k in 1..=settings {
            let setting = if r.once_in(20) { r.byte() } else { k as u8 };
            let mut one = vec![interface(number, setting, 0x0E, 2)];
            if r.once_in(8) {
                one.push(endpoint(r.pick(&[0x01, 0x82, 0x83]), packet(r)));
            }
            if !r.once_in(12) {
                one.push(endpoint(address, if r.once_in(3) { same } else { packet(r) }));
            }
            if r.once_in(12) {
                one.push(endpoint(address, packet(r)));
            }
            own.push(one);
        }
        if r.once_in(6) {
            r.shuffle(&mut own);
        }
        groups.extend(own);
    }
    if r.once_in(6) {
        r.shuffle(&mut groups);
    }
    for group in groups {
        if r.once_in(10) {
            all.extend(other(r));
        }
        let at = r.below(group.len() + 1);
        for (i, d) in group.into_iter().enumerate() {
            if i == at && r.once_in(20) {
                all.extend(other(r));
            }
            all.push(d);
        }
    }
    if r.once_in(40) {
        all.push(vec![255, 0x30]);
        all.last_mut().unwrap().resize(255, 7);
    }
    whole(&all)
}

/// One to three changes; the total length is often set right again.
fn damage(r: &mut Random, s: &mut Vec<u8>) {
    for _ in 0..1 + r.below(3) {
        if s.is_empty() {
            return;
        }
        let at = r.below(s.len());
        match r.below(10) {
            0..=2 => s[at] = r.byte(),
            3 => s[at] = r.pick(&[0, 1, 2, 4, 5, 7, 9, 0x0E, 0x24]),
            4 => s.truncate(at),
            5 => {
                s.remove(at);
            }
            6 => s.insert(at, r.byte()),
            7 => {
                let n = 1 + r.below(9);
                let more = vec![r.byte(); n];
                s.extend(more);
            }
            8 => s[at] = s[at].wrapping_add(1),
            _ => s[r.below(9.min(at + 1))] = r.byte(),
        }
        if !r.once_in(4) {
            total(s);
        }
    }
}

pub fn maybe_damaged(r: &mut Random) -> Vec<u8> {
    let mut s = configuration(r);
    if r.once_in(3) {
        damage(r, &mut s);
    }
    if r.once_in(60) {
        let n = 32_767 + r.below(3);
        // whole descriptors of two bytes, so that the length alone decides
        while s.len() + 2 <= n {
            s.extend([2, 0x30]);
        }
        s.resize(n, 1);
        total(&mut s);
    }
    s
}

/// A payload size near what the settings have.
pub fn payload(r: &mut Random, s: &[u8]) -> u32 {
    let sizes: Vec<u32> = read(s).map_or(vec![], |c| c.streams.iter().flat_map(|x| x.settings.iter().map(|y| y.bytes)).collect());
    if sizes.is_empty() || r.once_in(5) {
        return r.pick(&[0, 1, 3_072, 8_188, 8_189, 65_536, u32::MAX]);
    }
    r.pick(&sizes).wrapping_add(r.below(3) as u32).wrapping_sub(1)
}

/// A number of an interface, mostly one that is listed.
pub fn number(r: &mut Random, s: &[u8]) -> u8 {
    match read(s) {
        Ok(c) if !c.streams.is_empty() && !r.once_in(8) => r.pick(&c.streams).interface,
        _ => r.below(4) as u8,
    }
}

pub fn case(r: &mut Random) -> Case {
    let s = maybe_damaged(r);
    if r.once_in(2) {
        return Case::Configuration(s);
    }
    let interface = number(r, &s);
    let payload = payload(r, &s);
    Case::Pick(s, interface, payload)
}
