//! Whole configurations: 70 to 75.

use crate::making::blocks::*;
use crate::making::cases::Case;
use crate::making::configurations::{endpoint, interface, total, whole};

fn control_block(entries: &[u8]) -> Vec<u8> {
    control(CLOCK, entries, &[camera(1, [1, 2, 3]), processing(2, 1, [4, 5, 6]), output(9, 0x0101, 2)])
}

fn stream_block(address: u8) -> Vec<u8> {
    streaming(1, address, 9, 1, &[mjpeg(1, 1, 1), frame(7, 1, 640, 480, 614_400, 333_333, 1, &[333_333])])
}

/// The control interface 0 that names these interfaces, and its block.
fn head(entries: &[u8]) -> Vec<Vec<u8>> {
    vec![interface(0, 0, 0x0E, 1), control_block(entries)]
}

/// A streaming interface with its block and settings of these packet sizes.
fn stream(number: u8, packets: &[u16]) -> Vec<Vec<u8>> {
    let mut all = vec![interface(number, 0, 0x0E, 2), stream_block(0x81)];
    for (k, &packet) in packets.iter().enumerate() {
        all.push(interface(number, k as u8 + 1, 0x0E, 2));
        all.push(endpoint(0x81, packet));
    }
    all
}

fn join(parts: &[Vec<Vec<u8>>]) -> Vec<u8> {
    whole(&parts.concat())
}

fn camera_of(packets: &[u16]) -> Vec<u8> {
    join(&[head(&[1]), stream(1, packets)])
}

/// The configuration without a descriptor's bytes in front of this offset set right: a byte changed, and the total kept.
fn with(s: &[u8], at: usize, value: u8) -> Vec<u8> {
    let mut s = s.to_vec();
    s[at] = value;
    s
}

pub fn all() -> Vec<Case> {
    let mut all: Vec<Case> = [sizes(), descriptors(), controls(), crowds(), entries(), orders(), classes(), lists()]
        .concat()
        .into_iter()
        .map(Case::Configuration)
        .collect();
    all.extend(picks());
    all
}

/// 70 by the size and the first descriptor, 71.
fn sizes() -> Vec<Vec<u8>> {
    let one = camera_of(&[256, 512]);
    let mut all: Vec<Vec<u8>> = (0..12).map(|n| one[..n].to_vec()).collect();
    all.push(one.clone());
    all.extend([with(&one, 1, 4), with(&one, 1, 0x24), with(&one, 2, 0), with(&one, 3, 9), with(&one, 2, one[2].wrapping_add(1))]);
    for n in [32_767, 32_768, 32_769, 33_000] {
        let mut s = one.clone();
        while s.len() + 2 <= n {
            s.extend([2, 0x30]);
        }
        if s.len() < n {
            s.truncate(s.len() - 2);
            s.extend([3, 0x30, 0]);
        }
        total(&mut s);
        all.push(s);
    }
    all
}

/// 70 by a descriptor: under 2 bytes, past the end, too short for its kind; longer ones than the least are allowed.
fn descriptors() -> Vec<Vec<u8>> {
    let mut all = Vec::new();
    for last in [
        vec![0],
        vec![1],
        vec![2],
        vec![0, 0x30],
        vec![1, 0x30],
        vec![2, 0x30],
        vec![2, 0x24],
        vec![3, 0x30],
        vec![255, 0x30],
        vec![8, 2, 0, 0, 0, 0, 0, 0],
        vec![9, 2, 0, 0, 0, 0, 0, 0, 0],
        vec![8, 4, 7, 0, 0, 1, 1, 0],
        vec![9, 4, 7, 0, 0, 1, 1, 0, 0],
        vec![10, 4, 1, 9, 0, 0x0E, 2, 0, 0, 0],
        vec![6, 5, 0x81, 5, 0, 1],
        vec![7, 5, 0x81, 5, 0, 1, 1],
        vec![9, 5, 0x81, 5, 0, 1, 1, 0, 0],
        vec![2, 0x0B],
        vec![2, 4],
        vec![2, 5],
        vec![2, 2],
    ] {
        all.push(join(&[head(&[1]), stream(1, &[256]), vec![last.clone()]]));
        all.push(join(&[vec![last], head(&[1]), stream(1, &[256])]));
    }
    let mut long = camera_of(&[256]);
    long[0] = 10;
    long.insert(9, 0);
    total(&mut long);
    all.push(long);
    all
}

/// 72, and the control block's own.
fn controls() -> Vec<Vec<u8>> {
    let other = vec![interface(5, 0, 0x0E, 1), control_block(&[1])];
    vec![
        whole(&[]),
        join(&[stream(1, &[256])]),
        join(&[vec![interface(0, 1, 0x0E, 1), control_block(&[1])], stream(1, &[256])]),
        join(&[head(&[1]), stream(1, &[256]), other.clone()]),
        join(&[other.clone(), head(&[1]), other.clone(), stream(1, &[])]),
        join(&[head(&[1]), vec![interface(0, 1, 0x0E, 1)], stream(1, &[])]),
        join(&[vec![interface(0, 0, 0x0E, 1)], stream(1, &[256])]),
        join(&[vec![interface(0, 0, 0x0E, 1), endpoint(0x83, 16), control_block(&[1])], stream(1, &[256])]),
        join(&[stream(1, &[256]), vec![interface(0, 0, 0x0E, 1)]]),
        join(&[vec![interface(0, 0, 0x0E, 1), control(CLOCK, &[], &[selector(5, &[5])])], stream(1, &[])]),
        join(&[vec![interface(0, 0, 0x0E, 1), control(CLOCK, &[], &[selector(5, &[6])])], stream(1, &[])]),
        join(&[head(&[1]), vec![descriptor(1, &[0; 9])], stream(1, &[])]),
        join(&[head(&[1]), vec![vec![2, 0x24]], stream(1, &[])]),
    ]
}

/// 75: eight and nine interfaces, 32 and 33 settings of one, in which order they come.
fn crowds() -> Vec<Vec<u8>> {
    let many = |n: u8| -> Vec<Vec<u8>> { (1..=n).flat_map(|i| stream(i, &[])).collect() };
    let settings = |n: u8, number: u8| -> Vec<Vec<u8>> { (1..=n).map(|k| interface(number, k, 0x0E, 2)).collect() };
    let zero = |number: u8| vec![interface(number, 0, 0x0E, 2), stream_block(0x81)];
    vec![
        join(&[head(&[1]), many(8)]),
        join(&[head(&[1]), many(9)]),
        join(&[head(&[1]), many(10)]),
        join(&[head(&[1]), stream(1, &[]), settings(31, 1)]),
        join(&[head(&[1]), stream(1, &[]), settings(32, 1)]),
        join(&[head(&[1]), settings(32, 1), zero(1)]),
        join(&[head(&[1]), settings(31, 1), zero(1)]),
        join(&[head(&[1]), stream(1, &[]), settings(32, 2)]),
        join(&[head(&[1]), stream(1, &[]), settings(33, 2)]),
        join(&[head(&[1]), stream(1, &[]), settings(31, 1), settings(32, 2), settings(32, 255)]),
        join(&[head(&[1]), many(8), settings(31, 8), zero(9)]),
        join(&[head(&[1]), many(8), settings(32, 8), zero(9)]),
        join(&[head(&[1]), many(8), vec![interface(9, 1, 0x0E, 2)], vec![interface(0, 0, 0x0E, 3)]]),
        join(&[head(&[1]), (0..9).flat_map(|_| zero(1)).collect()]),
        join(&[head(&[1]), (0..8).flat_map(|_| zero(1)).collect()]),
    ]
}

/// 73, and the streaming blocks' own.
fn entries() -> Vec<Vec<u8>> {
    let bad = |number: u8| vec![interface(number, 0, 0x0E, 2), streaming(2, 0x81, 9, 1, &[mjpeg(1, 1, 1)])];
    vec![
        join(&[head(&[]), stream(1, &[256])]),
        join(&[head(&[1, 1]), stream(1, &[256])]),
        join(&[head(&[2]), stream(1, &[256])]),
        join(&[head(&[1, 2]), stream(1, &[256])]),
        join(&[head(&[2, 1]), stream(1, &[256]), stream(2, &[256])]),
        join(&[head(&[1]), stream(1, &[256]), stream(2, &[256])]),
        // a number with no setting 0 is not listed
        join(&[head(&[1, 2]), stream(1, &[256]), vec![interface(2, 1, 0x0E, 2)]]),
        join(&[head(&[1]), vec![interface(1, 0, 0x0E, 1)], stream(1, &[])]),
        join(&[head(&[0]), stream(1, &[])]),
        join(&[head(&[1]), bad(1)]),
        join(&[head(&[1, 2]), stream(1, &[]), bad(2)]),
        join(&[head(&[1, 2]), bad(2), bad(1)]),
        join(&[head(&[1]), vec![interface(1, 0, 0x0E, 2), endpoint(0x81, 64)]]),
        join(&[head(&[1]), vec![interface(1, 0, 0x0E, 2)]]),
        join(&[head(&[1]), vec![interface(1, 0, 0x0E, 2), streaming(1, 0x01, 9, 1, &[])]]),
        join(&[head(&[1]), vec![interface(1, 0, 0x0E, 2), streaming(1, 0x81, 1, 1, &[])]]),
        join(&[
            head(&[1]),
            vec![
                interface(1, 0, 0x0E, 2),
                streaming(1, 0x81, 9, 1, &[mjpeg(1, 2, 1), frame(7, 1, 640, 480, 614_400, 333_333, 1, &[333_333])]),
            ],
        ]),
    ]
}

/// Every order of two broken rules: each of these breaks one, laid together.
fn orders() -> Vec<Vec<u8>> {
    let second = vec![interface(7, 0, 0x0E, 1), control_block(&[1])];
    let crowd: Vec<Vec<u8>> = (0..33).map(|k| interface(6, k + 1, 0x0E, 2)).collect();
    let own = vec![interface(0, 0, 0x0E, 1), control(CLOCK, &[1], &[selector(5, &[6])])];
    let unnamed = head(&[1, 200]);
    let bad = vec![interface(1, 0, 0x0E, 2), streaming(2, 0x81, 9, 1, &[mjpeg(1, 1, 1)])];
    let mut all = Vec::new();
    for short in [false, true] {
        for wrong_total in [false, true] {
            for two in [false, true] {
                for many in [false, true] {
                    for first in [
                        head(&[1]),
                        own.clone(),
                        unnamed.clone(),
                        vec![interface(0, 0, 0x0E, 1), control(CLOCK, &[200], &[selector(5, &[6])])],
                    ] {
                        for stream in [stream(1, &[256]), bad.clone()] {
                            let mut parts = vec![stream, first.clone()];
                            if two {
                                parts.push(second.clone());
                            }
                            if many {
                                parts.push(crowd.clone());
                            }
                            if short {
                                parts.push(vec![vec![8, 4, 0, 0, 0, 0, 0, 0]]);
                            }
                            let mut s = join(&parts);
                            if wrong_total {
                                s[2] ^= 1;
                            }
                            all.push(s);
                        }
                    }
                }
            }
        }
    }
    all
}

/// Other classes between, and what ends a block.
fn classes() -> Vec<Vec<u8>> {
    let audio = vec![interface(2, 0, 1, 1), descriptor(1, &[1, 2]), descriptor(2, &[3])];
    let mut all = vec![
        join(&[vec![vec![8, 0x0B, 0, 2, 0x0E, 3, 0, 0]], head(&[1]), stream(1, &[256]), audio.clone()]),
        join(&[audio.clone(), head(&[1]), audio.clone(), stream(1, &[256])]),
        // under the same number, of another class or subclass
        join(&[
            head(&[1]),
            stream(1, &[256]),
            vec![interface(1, 2, 0x0E, 3), endpoint(0x81, 512), interface(1, 3, 1, 2), endpoint(0x81, 700)],
        ]),
        // class-specific descriptors behind an endpoint, another setting or another class belong to no block
        join(&[head(&[1]), vec![endpoint(0x83, 16), descriptor(9, &[1])], stream(1, &[256])]),
        join(&[head(&[1]), stream(1, &[256]), vec![stream_block(0x81)]]),
        join(&[head(&[1]), vec![vec![5, 0x25, 3, 64, 0], descriptor(3, &[])], stream(1, &[256])]),
        join(&[vec![descriptor(3, &[]), vec![2, 0x24]], head(&[1]), stream(1, &[256])]),
    ];
    // protocol, the number of interfaces and that of endpoints are not read
    let one = camera_of(&[256]);
    all.extend([with(&one, 4, 77), with(&one, 13, 9), with(&one, 16, 1)]);
    all
}

/// Settings before their setting 0, a pair that comes twice, endpoints of another address, two of them.
fn lists() -> Vec<Vec<u8>> {
    let setting = |number: u8, k: u8, address: u8, packet: u16| vec![interface(number, k, 0x0E, 2), endpoint(address, packet)];
    vec![
        camera_of(&[]),
        camera_of(&[0x13FC, 0x0A80, 0x1FFF, 0xFFFF, 0x07FF, 0x0800, 0x1800, 0xE000, 0]),
        join(&[setting(1, 3, 0x81, 300), head(&[1]), setting(1, 2, 0x81, 200), stream(1, &[100])]),
        join(&[head(&[1]), stream(1, &[100, 100]), setting(1, 1, 0x81, 50), vec![interface(1, 0, 0x0E, 2), stream_block(0x82)]]),
        join(&[head(&[1]), stream(1, &[]), vec![interface(1, 1, 0x0E, 2), endpoint(0x82, 9), endpoint(0x81, 64), endpoint(0x81, 128)]]),
        join(&[head(&[1]), stream(1, &[]), vec![interface(1, 1, 0x0E, 2), interface(3, 0, 1, 1), endpoint(0x81, 64)]]),
        join(&[head(&[1]), stream(1, &[]), vec![interface(1, 1, 0x0E, 2), descriptor(9, &[]), vec![2, 0x30], endpoint(0x81, 64)]]),
        join(&[head(&[1, 2]), stream(1, &[100]), stream(2, &[200]), setting(1, 2, 0x81, 300), setting(2, 2, 0x81, 400)]),
    ]
}

/// 74 on both sides, ties, bits 12 and 11, interfaces that are not there.
fn picks() -> Vec<Case> {
    let mut all = Vec::new();
    let one = camera_of(&[512, 0x0A00, 0x13FC, 512, 256, 0x1800]);
    for payload in [0, 1, 255, 256, 257, 511, 512, 513, 1_023, 1_024, 1_025, 3_059, 3_060, 3_061, 8_188, u32::MAX] {
        all.push(Case::Pick(one.clone(), 1, payload));
    }
    let full = camera_of(&[0x1FFF, 0x17FF, 0x0FFF, 0x07FF]);
    for payload in [2_047, 2_048, 4_094, 4_095, 6_141, 6_142, 8_188, 8_189] {
        all.push(Case::Pick(full.clone(), 1, payload));
    }
    // ties: the lowest number, wherever it stands
    let tie = |order: &[u8]| -> Vec<u8> {
        let mut parts = vec![head(&[1]), stream(1, &[])];
        parts.extend(order.iter().map(|&k| vec![interface(1, k, 0x0E, 2), endpoint(0x81, 800)]));
        join(&parts)
    };
    for order in [&[1, 2, 3][..], &[3, 2, 1], &[2, 3, 1], &[7, 255, 7]] {
        all.extend([0, 799, 800, 801].map(|p| Case::Pick(tie(order), 1, p)));
    }
    for interface in [0, 2, 255] {
        all.push(Case::Pick(one.clone(), interface, 0));
    }
    // an interface with settings and no setting 0, and two of one number: the first one's endpoint
    let two = join(&[
        head(&[1]),
        stream(1, &[100]),
        vec![interface(1, 0, 0x0E, 2), stream_block(0x82)],
        vec![interface(1, 2, 0x0E, 2), endpoint(0x82, 900), endpoint(0x81, 300)],
        vec![interface(3, 1, 0x0E, 2), endpoint(0x81, 300)],
    ]);
    for (interface, payload) in [(1, 0), (1, 100), (1, 101), (1, 300), (1, 301), (3, 0), (3, 300)] {
        all.push(Case::Pick(two.clone(), interface, payload));
    }
    // the configuration's own refusals come first
    for s in orders().into_iter().step_by(7) {
        all.push(Case::Pick(s, 1, u32::MAX));
    }
    all
}
