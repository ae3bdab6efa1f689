//! Streaming and probe blocks: 20 to 46.

use crate::making::blocks::*;
use crate::making::cases::Case;
use crate::reading::control::Revision;
use crate::reading::streaming::Place;

pub fn all() -> Vec<Case> {
    let mut all = streaming_cases();
    all.extend(hostile_tables());
    all.extend(probes());
    all
}

fn table_block() -> Vec<u8> {
    control(CLOCK, &[1], &[camera(1, [1, 2, 3]), output(9, 0x0101, 1), output(8, 0x0301, 1), output(7, 0x0101, 1)])
}

fn picture(subtype: u8, index: u8) -> Vec<u8> {
    frame(subtype, index, 640, 480, 614_400, 333_333, 1, &[333_333])
}

/// 21 to 38.
fn streaming_cases() -> Vec<Case> {
    let mut blocks: Vec<Vec<u8>> = Vec::new();
    let none = streaming(0, 0x81, 9, 0, &[]);
    let good = streaming(
        2,
        0x82,
        9,
        1,
        &[
            uncompressed(1, 2, &YUY2, 16, 2),
            picture(5, 1),
            frame(5, 2, 1280, 720, 1_843_200, 500_000, 0, &[333_333, 1_000_000, 166_667 - 100_000]),
            descriptor(0x0D, &[1, 1, 4]),
            mjpeg(2, 1, 1),
            descriptor(3, &[0, 1, 2]),
            frame(7, 1, 640, 480, 614_400, 500_000, 3, &[333_333, 500_000, 1_000_000]),
            descriptor(0x0D, &[1, 1, 4]),
        ],
    );
    blocks.extend((0..=13).map(|n| none[..n].to_vec()));
    blocks.push(good.clone());
    for bytes in [16_370, 16_371, 16_372] {
        blocks.push(streaming(0, 0x81, 9, 0, &filler(bytes)));
    }
    blocks.push(vec![13; 16_500]);
    blocks.extend([with(&none, 1, 0x25), with(&none, 2, 2), with(&none, 2, 0), with(&none, 4, 12), with(&none, 5, 1)]);
    blocks.extend([with(&none, 0, 0), with(&none, 0, 2), with(&none, 0, 14), with(&none, 0, 12), with(&none, 0, 3)]);
    // 25 to 27: what may not come after the header, and what is stepped over.
    for rest in [vec![3], vec![3, 0x24], vec![0, 0x24, 3], vec![2, 0x24, 3], vec![3, 0x24, 3], vec![4, 0x24, 3], vec![3, 0x25, 3]] {
        blocks.push(streaming(0, 0x81, 9, 0, &[rest]));
    }
    blocks.push(streaming(0, 0x81, 9, 0, &[none.clone()]));
    for subtype in 0..=0x1A {
        blocks.push(streaming(0, 0x81, 9, 0, &[descriptor(subtype, &[1, 0, 0, 0, 0, 0, 0, 0])]));
    }
    blocks.push(streaming(0, 0x81, 9, 0, &[descriptor(0xFF, &[])]));
    // 28: lengths around the right ones.
    for (subtype, right) in [(1u8, 13usize), (4, 27), (6, 11), (5, 30), (7, 38)] {
        let format = if subtype == 5 { uncompressed(1, 1, &NV12, 12, 1) } else { mjpeg(1, 1, 1) };
        let d = match subtype {
            4 => uncompressed(1, 1, &NV12, 12, 1),
            6 => mjpeg(1, 1, 1),
            5 => picture(5, 1),
            _ => frame(7, 1, 1, 1, 1, 10, 0, &[10, 20, 5]),
        };
        for n in [3, 4, right - 2, right - 1, right, right + 1, 25, 26] {
            let mut other = d.clone();
            other.resize(n, 0);
            other[0] = n as u8;
            let all = match subtype {
                5 | 7 => vec![format.clone(), other],
                1 => vec![],
                _ => vec![other],
            };
            blocks.push(if subtype == 1 {
                with(&streaming(1, 0x81, 9, 0, &[mjpeg(1, 1, 1), picture(7, 1)]), 0, n as u8)
            } else {
                streaming(1, 0x81, 9, 0, &all)
            });
        }
    }
    for n in [0u8, 1, 2, 30] {
        let all = [mjpeg(1, 1, 1), picture(7, 1)];
        blocks.push(streaming(1, 0x81, 9, n, &all));
        blocks.push(with(&streaming(1, 0x81, 9, n, &all), 12, n + 1));
    }
    // 29 and 30.
    blocks.extend([streaming(0, 0x01, 9, 0, &[]), streaming(0, 0x7F, 1, 0, &[]), streaming(0, 0xFF, 9, 0, &[])]);
    blocks.extend([0, 1, 2, 7, 8, 9, 255].map(|link| streaming(0, 0x81, link, 0, &[])));
    // 31 to 33.
    for index in [0, 2, 255] {
        blocks.push(streaming(1, 0x81, 9, 0, &[mjpeg(index, 1, 1), picture(7, 1)]));
        blocks.push(streaming(1, 0x81, 9, 0, &[mjpeg(1, 1, 1), picture(7, index)]));
        blocks.push(streaming(2, 0x81, 9, 0, &[mjpeg(1, 1, 1), picture(7, 1), uncompressed(index, 1, &YUY2, 16, 1), picture(5, 1)]));
    }
    blocks.push(streaming(0, 0x81, 9, 0, &[picture(7, 1)]));
    blocks.push(streaming(1, 0x81, 9, 0, &[mjpeg(1, 1, 1), picture(5, 1)]));
    blocks.push(streaming(1, 0x81, 9, 0, &[uncompressed(1, 1, &YUY2, 16, 1), picture(7, 1)]));
    blocks.push(streaming(2, 0x81, 9, 0, &[mjpeg(1, 2, 1), picture(7, 1), uncompressed(2, 1, &YUY2, 16, 1), picture(7, 2)]));
    blocks.push(streaming(2, 0x81, 9, 0, &[mjpeg(1, 1, 1), picture(7, 1), mjpeg(2, 1, 1), picture(7, 2)]));
    // 34: lists, ranges and their defaults.
    for (default, list) in [
        (1, vec![1]),
        (0, vec![0]),
        (0, vec![0, 1]),
        (2, vec![1]),
        (1, vec![1, 1]),
        (1, vec![2, 1]),
        (u32::MAX, vec![1, u32::MAX]),
        (3, vec![1, 2, 3]),
        (3, vec![1, 3, 2]),
        (5, (1..=57).collect()),
    ] {
        blocks.push(streaming(1, 0x81, 9, 0, &[mjpeg(1, 1, 1), frame(7, 1, 1, 2, 3, default, list.len() as u8, &list)]));
    }
    for (default, shortest, longest, step) in [
        (10, 10, 10, 1),
        (10, 10, 10, 0),
        (10, 11, 10, 1),
        (10, 10, 9, 1),
        (0, 0, 10, 1),
        (5, 0, 10, 5),
        (9, 10, 20, 1),
        (21, 10, 20, 1),
        (20, 10, 20, 5),
        (15, 10, 19, 5),
        (16, 10, 20, 5),
        (5, 10, 20, 5),
        (4, 10, u32::MAX, u32::MAX - 5),
        (u32::MAX, 1, u32::MAX, 2),
        (u32::MAX, 1, u32::MAX, u32::MAX - 1),
        (u32::MAX, 1, u32::MAX, u32::MAX),
        (10, 10, 20, u32::MAX),
    ] {
        blocks.push(streaming(1, 0x81, 9, 0, &[mjpeg(1, 1, 1), frame(7, 1, 1, 2, 3, default, 0, &[shortest, longest, step])]));
    }
    // 35: the edges of 8 formats and 64 frames.
    for n in 7..=9u8 {
        let all: Vec<Vec<u8>> = (1..=n).flat_map(|i| [mjpeg(i, 1, 1), picture(7, 1)]).collect();
        blocks.push(streaming(n, 0x81, 9, 0, &all));
    }
    for n in 63..=65u8 {
        let mut all = vec![mjpeg(1, n, 1)];
        all.extend((1..=n).map(|i| picture(7, i)));
        blocks.push(streaming(1, 0x81, 9, 0, &all));
        // The 65th counts over the whole block.
        let mut two = vec![mjpeg(1, 40, 1)];
        two.extend((1..=40).map(|i| picture(7, i)));
        two.push(uncompressed(2, n - 40, &NV12, 12, 1));
        two.extend((1..=n - 40).map(|i| picture(5, i)));
        blocks.push(streaming(2, 0x81, 9, 0, &two));
    }
    blocks.extend(sizes());
    blocks.extend(frame_based_formats());
    // 36 to 38.
    for (count, default, p) in [(2, 1, 1), (0, 1, 1), (1, 0, 1), (1, 2, 1), (1, 1, 0), (1, 1, 2), (2, 0, 2), (1, 0, 2)] {
        blocks.push(streaming(p, 0x81, 9, 0, &[mjpeg(1, count, default), picture(7, 1)]));
    }
    blocks.push(streaming(1, 0x81, 9, 0, &[mjpeg(1, 0, 0)]));
    blocks.push(streaming(1, 0x81, 9, 0, &[mjpeg(1, 0, 1)]));
    blocks.push(streaming(2, 0x81, 9, 0, &[mjpeg(1, 1, 0), picture(7, 1), uncompressed(2, 2, &YUY2, 16, 1), picture(5, 1)]));
    blocks.push(streaming(1, 0x81, 9, 0, &[]));
    // GUIDs that differ in one byte.
    for at in 0..16 {
        let mut guid = if at % 2 == 0 { YUY2 } else { NV12 };
        guid[at] ^= 0x20;
        blocks.push(streaming(1, 0x81, 9, 0, &[uncompressed(1, 1, &guid, 24, 1), picture(5, 1)]));
    }
    let mut all: Vec<Case> = blocks.into_iter().map(|b| Case::Streaming(table_block(), b)).collect();
    // Against a control block that is refused, which has no table.
    all.push(Case::Streaming(with(&table_block(), 5, 0), good.clone()));
    all.push(Case::Streaming(vec![], none));
    all
}

/// 39: sizes that can be true and sizes that can't, at each boundary.
fn sizes() -> Vec<Vec<u8>> {
    let other = [0x77; 16];
    let one = |guid: &[u8; 16], bits, width, height, size| {
        streaming(1, 0x81, 9, 0, &[uncompressed(1, 1, guid, bits, 1), frame(5, 1, width, height, size, 10, 1, &[10])])
    };
    let mut blocks = Vec::new();
    for (guid, right) in [(&YUY2, 16u8), (&NV12, 12), (&other, 16)] {
        for bits in [0, 11, 12, 13, 15, 16, 17, 255] {
            blocks.push(one(guid, bits, 4, 4, 1_000));
        }
        for (width, height) in [
            (0u64, 0u64),
            (0, 1),
            (1, 0),
            (1, 1),
            (1, 2),
            (1, 3),
            (3, 1),
            (3, 3),
            (3, 5),
            (640, 480),
            (256, 257),
            (16_384, 16_384),
            (32_768, 65_535),
            (65_535, 65_535),
        ] {
            let bytes = (width * height * u64::from(right) + 7) / 8;
            for size in [bytes.saturating_sub(1), bytes, bytes + 1, bytes / 2, bytes % (1 << 32), 0, u64::from(u32::MAX)] {
                blocks.push(one(guid, right, width as u16, height as u16, u32::try_from(size).unwrap_or(u32::MAX)));
            }
        }
        // A format with the wrong bits and no frames is left to 36 and 37.
        blocks.push(streaming(1, 0x81, 9, 0, &[uncompressed(1, 0, guid, 1, 1)]));
        blocks.push(streaming(1, 0x81, 9, 0, &[uncompressed(1, 1, guid, 1, 1)]));
        // The format read last decides; the second frame is the one that is too small.
        blocks.push(streaming(
            2,
            0x81,
            9,
            0,
            &[uncompressed(1, 1, guid, 24, 1), picture(5, 1), uncompressed(2, 1, &YUY2, 16, 1), picture(5, 1)],
        ));
        blocks.push(streaming(
            2,
            0x81,
            9,
            0,
            &[uncompressed(1, 1, &YUY2, 16, 1), picture(5, 1), uncompressed(2, 1, guid, 24, 1), picture(5, 1)],
        ));
        let small = frame(5, 2, 640, 480, 460_799, 10, 1, &[10]);
        blocks.push(streaming(1, 0x81, 9, 0, &[uncompressed(1, 2, guid, right, 1), picture(5, 1), small.clone()]));
        // 33 and 34 come before 39.
        blocks.push(streaming(1, 0x81, 9, 0, &[uncompressed(1, 2, guid, right, 1), small]));
        blocks.push(streaming(1, 0x81, 9, 0, &[uncompressed(1, 1, guid, right, 1), frame(5, 1, 640, 480, 1, 11, 1, &[10])]));
        // 39 comes before 35: a 65th frame that is too small.
        for size in [1, 614_400] {
            let mut all = vec![uncompressed(1, 65, guid, right, 1)];
            all.extend((1..=64).map(|i| picture(5, i)));
            all.push(frame(5, 65, 640, 480, size, 10, 1, &[10]));
            blocks.push(streaming(1, 0x81, 9, 0, &all));
        }
    }
    // MJPEG frames may say anything.
    blocks.push(streaming(1, 0x81, 9, 0, &[mjpeg(1, 1, 1), frame(7, 1, 0, 0, 0, 10, 1, &[10])]));
    blocks
}

/// Subtypes 0x10 and 0x11, and 40.
fn frame_based_formats() -> Vec<Vec<u8>> {
    let format = |flag| frame_based(1, 1, &H264, 0, 1, flag);
    let moving = |index, line| line_frame(index, 640, 480, line, 333_333, 1, &[333_333]);
    let one = |format: Vec<u8>, frame: Vec<u8>| streaming(1, 0x81, 9, 0, &[format, frame]);
    let mut blocks = Vec::new();
    // The flag and the bytes per line.
    for flag in [0, 1, 2, 255] {
        for line in [0, 1, 256, 0x0100_0000, u32::MAX] {
            blocks.push(one(format(flag), moving(1, line)));
        }
    }
    // GUIDs are compared as an uncompressed format's, and 39 is not asked.
    for guid in [YUY2, NV12, H264] {
        blocks.push(one(frame_based(1, 1, &guid, 7, 1, 0), line_frame(1, 0, 0, 5, 10, 1, &[10])));
        blocks.push(one(frame_based(1, 1, &guid, 16, 1, 1), line_frame(1, 65_535, 65_535, 0, 10, 1, &[10])));
    }
    // 28: lengths around the right ones.
    for n in [3, 4, 27, 29] {
        let mut other = format(0);
        other.resize(n, 0);
        other[0] = n as u8;
        blocks.push(one(other, moving(1, 0)));
    }
    for n in [3, 21, 22, 25, 26, 29, 31, 38] {
        let mut other = moving(1, 0);
        other.resize(n, 0);
        other[0] = n as u8;
        blocks.push(one(format(0), other));
    }
    // k stands at 21: what stands at 25 says nothing of the length.
    for line in [0x0200_0000, 0] {
        blocks.push(one(format(0), line_frame(1, 4, 4, line, 10, 2, &[10, 20])));
        blocks.push(one(format(0), line_frame(1, 4, 4, line, 20, 0, &[10, 30, 5])));
    }
    // 31, 32, 33 over the three kinds.
    let kinds = [(uncompressed(1, 1, &YUY2, 16, 1), picture(5, 1)), (mjpeg(1, 1, 1), picture(7, 1)), (format(0), moving(1, 0))];
    for (format, _) in &kinds {
        for (other, frame) in &kinds {
            blocks.push(one(format.clone(), frame.clone()));
            let mut second = other.clone();
            second[3] = 2;
            blocks.push(streaming(2, 0x81, 9, 0, &[mjpeg(1, 1, 1), picture(7, 1), second.clone(), frame.clone()]));
            blocks.push(streaming(2, 0x81, 9, 0, &[format.clone(), frame.clone(), second, frame.clone()]));
        }
    }
    blocks.push(one(with(&format(0), 3, 2), moving(1, 0)));
    blocks.push(one(format(0), moving(2, 0)));
    blocks.push(streaming(1, 0x81, 9, 0, &[frame_based(1, 2, &H264, 0, 2, 1), moving(1, 0), moving(2, 1)]));
    // 34, at this kind's places.
    for (default, list) in [(1, vec![1]), (2, vec![1]), (0, vec![0]), (3, vec![1, 3, 2]), (u32::MAX, vec![1, u32::MAX])] {
        blocks.push(one(format(0), line_frame(1, 1, 2, 3, default, list.len() as u8, &list)));
    }
    for (default, shortest, longest, step) in
        [(10, 10, 10, 1), (10, 10, 10, 0), (15, 10, 19, 5), (16, 10, 20, 5), (5, 0, 10, 5), (21, 10, 20, 1)]
    {
        blocks.push(one(format(0), line_frame(1, 1, 2, 3, default, 0, &[shortest, longest, step])));
    }
    // 31 before 40 before 35, at a format; 34 before 40 before 35, at a frame.
    blocks.push(one(with(&format(2), 3, 2), moving(1, 0)));
    blocks.push(one(format(1), line_frame(1, 1, 2, 3, 11, 1, &[10])));
    for flag in [1, 2] {
        let mut nine: Vec<Vec<u8>> = (1..=8).flat_map(|i| [mjpeg(i, 1, 1), picture(7, 1)]).collect();
        nine.push(frame_based(9, 1, &H264, 0, 1, flag));
        blocks.push(streaming(9, 0x81, 9, 0, &nine));
    }
    for line in [0, 1] {
        let mut many = vec![frame_based(1, 65, &H264, 0, 1, 1)];
        many.extend((1..=64).map(|i| moving(i, 0)));
        many.push(moving(65, line));
        blocks.push(streaming(1, 0x81, 9, 0, &many));
    }
    // The flag of the last format decides.
    blocks.push(streaming(2, 0x81, 9, 0, &[format(1), moving(1, 0), frame_based(2, 1, &H264, 0, 1, 0), moving(1, 9)]));
    blocks.push(streaming(2, 0x81, 9, 0, &[format(0), moving(1, 9), frame_based(2, 1, &H264, 0, 1, 1), moving(1, 9)]));
    blocks
}

/// 20 and 30 on tables that no block gave.
fn hostile_tables() -> Vec<Case> {
    let output = |id| Place { id, kind: 3, terminal: 0x0101, offset: 0 };
    let other = |id| Place { id, kind: 2, terminal: 0x0101, offset: 0 };
    let none = || Place { id: 0, kind: 0, terminal: 0, offset: 0 };
    let block = |link| streaming(1, 0x81, link, 0, &[mjpeg(1, 1, 1), picture(7, 1)]);
    let mut all = Vec::new();
    for (count, revision) in [0, 1, 31, 32, 33, 40].into_iter().zip(Revision::ALL.into_iter().cycle()) {
        all.push(Case::Hostile(count, revision, (0..32).map(|_| output(9)).collect(), block(9)));
        all.push(Case::Hostile(count, revision, (1..=32).map(output).collect(), block(32)));
        all.push(Case::Hostile(count, revision, (0..32).map(|_| none()).collect(), block(0)));
        all.push(Case::Hostile(count, revision, (0..32).map(|i| if i == 0 { output(0) } else { none() }).collect(), block(0)));
        // The first used place decides, even where a later one would do.
        all.push(Case::Hostile(count, revision, (0..32).map(|i| if i == 0 { other(9) } else { output(9) }).collect(), block(9)));
        all.push(Case::Hostile(count, revision, (0..32).map(|i| if i == 31 { output(9) } else { other(1) }).collect(), block(9)));
        all.push(Case::Hostile(count, revision, (0..32).map(|_| output(9)).collect(), vec![]));
    }
    all
}

/// 41 to 46.
fn probes() -> Vec<Case> {
    let block = streaming(
        3,
        0x81,
        9,
        0,
        &[
            uncompressed(1, 2, &YUY2, 16, 1),
            frame(5, 1, 1, 1, 2, 20, 0, &[10, 30, 5]),
            picture(5, 2),
            mjpeg(2, 1, 1),
            frame(7, 1, 1, 1, 1, 100, 3, &[100, 200, 300]),
            frame_based(3, 2, &H264, 0, 1, 1),
            line_frame(1, 1, 1, 0, 250, 2, &[200, 250]),
            line_frame(2, 1, 1, 0, 35, 0, &[30, 50, 5]),
        ],
    );
    let mut all = Vec::new();
    let mut check = |p: Vec<u8>| all.push(Case::Check(table_block(), block.clone(), p));
    for (format, number) in [(0, 1), (1, 0), (1, 1), (1, 2), (1, 3), (2, 1), (2, 2), (3, 1), (3, 2), (3, 3), (4, 1), (255, 255)] {
        for interval in [0, 9, 10, 12, 15, 30, 31, 35, 100, 200, 250, 300, 333_333, u32::MAX] {
            check(probe(format, number, interval, 1_000, 1_000));
        }
    }
    for frame_size in [0, 1, 16_777_215, 16_777_216, 16_777_217, u32::MAX] {
        for payload_size in [0, 1, 2, 3, 65_535, 65_536, 65_537, u32::MAX] {
            check(probe(1, 1, 10, frame_size, payload_size));
        }
    }
    for n in [0, 1, 26, 34, 47, 49, 64] {
        check(vec![1; n]);
    }
    // 41 comes before the block's own refusal, and that before 42.
    all.push(Case::Check(table_block(), vec![], vec![1; 47]));
    all.push(Case::Check(table_block(), with(&block, 6, 0), probe(9, 9, 0, 0, 0)));
    all.push(Case::Check(vec![], block.clone(), probe(1, 1, 10, 5, 5)));
    all.push(Case::Check(table_block(), streaming(0, 0x81, 9, 0, &[]), probe(1, 1, 10, 5, 5)));
    for revision in Revision::ALL {
        for n in [0, 25, 26, 27, 33, 34, 35, 47, 48, 49, 64] {
            for m in [0, 25, 26, 27, 33, 34, 35, 47, 48, 49, 64] {
                all.push(Case::Write(revision, (1..=n).collect(), vec![0xCC; m]));
            }
        }
        // 41 by the control block's revision; the fields that are asked of stand in the first 26 bytes.
        let old = control_of(revision, 1, &[], &[input(1, 0x0401, &[]), output(9, 0x0101, 1)]);
        for n in [0, 25, 26, 27, 33, 34, 35, 47, 48, 49] {
            for asked in [probe(1, 1, 10, 5, 5), probe(1, 1, 9, 5, 5), probe(9, 1, 10, 5, 5), probe(1, 1, 10, 5, 1)] {
                let mut p = asked.clone();
                p.resize(n, 0);
                all.push(Case::Check(old.clone(), block.clone(), p));
            }
        }
    }
    all
}
