//! Camera settings: 90 to 95, every setting and request, and the ends of both number ranges.

use crate::making::blocks::*;
use crate::making::cases::Case;
use crate::reading::control::Revision;
use crate::reading::setup::{self, REQUESTS, SETTINGS};

pub fn all() -> Vec<Case> {
    let mut all = building();
    all.extend(reading());
    all.extend(moving());
    all
}

/// A camera terminal 1, a processing unit 2 with these controls, and unit 7 with none.
fn camera_with(controls: [u8; 3]) -> Vec<u8> {
    control(
        CLOCK,
        &[1],
        &[camera(1, [0xFF; 3]), processing(2, 1, controls), processing(7, 2, [0; 3]), output(3, 0x0101, 7), encoding(6, 2)],
    )
}

fn build(control: &[u8], interface: u8, unit: u8, setting: usize, request: usize, room: usize) -> Case {
    Case::Build { control: control.to_vec(), interface, unit, setting, request, room: (0..room as u8).map(|b| 0xF0 | b).collect() }
}

fn building() -> Vec<Case> {
    let open = camera_with([0x0F, 0, 0]);
    let mut all = Vec::new();
    for setting in 0..SETTINGS.len() {
        for request in 0..REQUESTS.len() {
            all.push(build(&open, 0, 2, setting, request, 8));
        }
        // Only this bit, and all but this.
        for bits in [1 << setting, !(1 << setting)] {
            all.push(build(&camera_with([bits, 0xFF, 0xFF]), 0, 2, setting, 0, 9));
        }
        all.push(build(&open, 255, 7, setting, 5, 8));
        // Older cameras, whose map may have no byte.
        for revision in [Revision::Old10, Revision::Old11] {
            for controls in [&[][..], &[0x0F], &[0x0F; 32]] {
                let unit = processing_of(revision, 2, 1, controls);
                let block = control_of(revision, CLOCK, &[], &[camera_of(1, &[0xFF]), unit]);
                all.push(build(&block, 1, 2, setting, 5, 8));
            }
        }
    }
    for unit in [0, 1, 3, 6, 4, 255] {
        all.push(build(&open, 0, unit, 0, 0, 8));
    }
    for room in [0, 7, 8, 9, 20] {
        all.push(build(&open, 0, 2, 3, 1, room));
    }
    // The order: the block's own, 90, 91, 94.
    all.push(build(&open[..open.len() - 1], 0, 0, 0, 0, 0));
    all.push(build(&open, 0, 1, 0, 0, 0));
    all.push(build(&open, 0, 7, 0, 0, 0));
    all
}

fn reading() -> Vec<Case> {
    let open = camera_with([0x0F, 0, 0]);
    let mut all = Vec::new();
    let mut read = |block: &[u8], interface, bytes: &[u8]| all.push(Case::ReadBack(block.to_vec(), interface, bytes.to_vec()));
    for setting in SETTINGS {
        for request in REQUESTS {
            read(&open, 3, &setup::packet(&open, 3, 2, setting, request).unwrap());
        }
    }
    let hue = setup::packet(&open, 0, 2, "hue", "set_cur").unwrap();
    for n in 0..8 {
        read(&open, 0, &hue[..n]);
    }
    read(&open, 0, &[&hue[..], &[0]].concat());
    read(&open, 1, &hue);
    read(&camera_with([0x0B, 0, 0]), 0, &hue);
    read(&open[..11], 0, &hue);
    read(&open, 2, &[0x21, 0x01, 0, 6, 2, 2, 2, 0]);
    let get = setup::packet(&open, 0, 2, "hue", "get_cur").unwrap();
    for at in 0..8 {
        for value in [get[at] ^ 1, get[at] ^ 0x80, 0xFF] {
            read(&open, 0, &with(&get, at, value));
        }
    }
    // GET_LEN, GET_INFO, the requests for all controls, other selectors, a camera terminal, an audio request.
    for request in [0x85, 0x86, 0x91, 0x97, 0x80, 0x88] {
        read(&open, 0, &with(&get, 1, request));
    }
    for selector in [0, 1, 4, 5, 8] {
        read(&open, 0, &with(&get, 3, selector));
    }
    for unit in [0, 1, 3, 6, 7] {
        read(&open, 0, &with(&get, 5, unit));
    }
    all
}

fn moving() -> Vec<Case> {
    let mut all = Vec::new();
    let mut words = |w: [i32; 4]| (0..SETTINGS.len()).for_each(|s| all.push(Case::Nearest(s, w.map(|n| n as u16))));
    // 0 to 10 by 4: 0, 4 and 8.
    for wanted in -2..=14 {
        words([0, 10, 4, wanted]);
    }
    // Ties, the lower: of 3 and 6, of -3 and 0, of 32,766 and 32,767, of 32,767 and 32,768.
    for (low, high, step, wanted) in
        [(3, 9, 2, 4), (-3, 3, 2, -2), (-4, 4, 4, -2), (-4, 4, 4, 2), (0x7FF0, 0x7FFE, 2, 0x7FF1), (0x7FFE, 0x8002, 2, 0x7FFF)]
    {
        words([low, high, step, wanted]);
    }
    // Both ends of both ranges.
    for low in [0, 0x7FFF, 0x8000, 0xFFFF] {
        for high in [0, 0x7FFF, 0x8000, 0xFFFF] {
            for step in [1, 0x7FFF] {
                for wanted in [0, 0x8000, 0xFFFF] {
                    words([low, high, step, wanted]);
                }
            }
        }
    }
    // 92 before 93; a step of 0.
    words([5, 4, 0, 0]);
    words([0, 9, 0x8000, 5]);
    words([0, 9, 0xFFFF, 5]);
    words([4, 4, 0, 9]);
    words([4, 4, 1, 9]);
    words([4, 4, 100, -9]);
    all
}
