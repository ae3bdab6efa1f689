//! Random camera settings: packets, and wanted numbers.

use crate::making::blocks;
use crate::making::cases::Case;
use crate::making::chance::Random;
use crate::making::random::control::{control, linked_control, maybe_damaged_control};
use crate::reading::control::read;
use crate::reading::setup::{self, REQUESTS, SETTINGS};

/// A control block with units, and an interface, a unit, a setting and a request, most of them such that a packet is built.
pub fn asked(r: &mut Random) -> (Vec<u8>, u8, u8, usize, usize) {
    let block = match r.below(8) {
        0 => maybe_damaged_control(r),
        1 => control(r),
        _ => linked_control(r),
    };
    let unit = match r.below(6) {
        0 => r.byte(),
        1 => 1,
        _ => read(&block).ok().and_then(|c| c.entities.iter().find(|e| e.kind == 5).map(|e| e.id)).unwrap_or(2),
    };
    (block, r.pick(&[0, 0, 1, 3, 255]), unit, r.below(4), r.below(6))
}

/// Bytes that are a packet, or nearly.
pub fn packet(r: &mut Random, (block, interface, unit, setting, request): &(Vec<u8>, u8, u8, usize, usize)) -> Vec<u8> {
    let open = blocks::control(1, &[], &[blocks::camera(200, [0; 3]), blocks::processing(*unit, 200, [15, 0, 0])]);
    let built = setup::packet(block, *interface, *unit, SETTINGS[*setting], REQUESTS[*request]);
    let mut bytes = built.or_else(|_| setup::packet(&open, *interface, *unit, SETTINGS[*setting], REQUESTS[*request])).unwrap_or_default();
    match r.below(10) {
        0 if !bytes.is_empty() => {
            let at = r.below(bytes.len());
            bytes[at] = r.pick(&[0, 1, 2, 3, 4, 5, 6, 7, 0x21, 0x81, 0x84, 0x85, 0x86, 0x87, 0xA1, 0xA2]);
        }
        1 if !bytes.is_empty() => {
            let at = r.below(bytes.len());
            bytes[at] ^= 1 << r.below(8);
        }
        2 => bytes.truncate(r.below(9)),
        3 => bytes.push(r.pick(&[0, 2])),
        4 if bytes.len() == 8 => bytes.swap(4, 5),
        _ => {}
    }
    bytes
}

/// Words around the ends of both number ranges, near each other, or any.
pub fn range(r: &mut Random) -> [u16; 4] {
    let near = |r: &mut Random| r.pick(&[0u16, 1, 2, 0x7FFE, 0x7FFF, 0x8000, 0x8001, 0xFFFE, 0xFFFF]);
    let far = |r: &mut Random| if r.once_in(2) { near(r) } else { r.next() as u16 };
    match r.below(4) {
        0 => [near(r), near(r), near(r), near(r)],
        1 => [far(r), far(r), far(r), far(r)],
        // A small range around a number, and a wanted one in it or just outside.
        _ => {
            let low = far(r);
            let high = low.wrapping_add(r.below(40) as u16);
            let step = 1 + r.below(12) as u16;
            [low, high, step, low.wrapping_add(r.below(50) as u16).wrapping_sub(5)]
        }
    }
}

pub fn settings(r: &mut Random) -> Case {
    match r.below(3) {
        0 => {
            let (control, interface, unit, setting, request) = asked(r);
            let n = if r.once_in(5) { r.below(9) } else { 8 + r.below(4) };
            let room = r.bytes(n);
            Case::Build { control, interface, unit, setting, request, room }
        }
        1 => {
            let it = asked(r);
            let bytes = packet(r, &it);
            let interface = if r.once_in(8) { r.byte() } else { it.1 };
            Case::ReadBack(it.0, interface, bytes)
        }
        _ => Case::Nearest(r.below(4), range(r)),
    }
}
