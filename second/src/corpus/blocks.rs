//! Control blocks: 1 to 16.

use crate::making::blocks::*;
use crate::making::cases::Case;
use crate::reading::control::Revision;

pub fn all() -> Vec<Case> {
    let mut blocks = control_heads();
    blocks.extend(control_descriptors());
    blocks.extend(control_sources());
    blocks.extend(older());
    let mut all: Vec<Case> = blocks.into_iter().map(Case::Control).collect();
    all.extend(maps());
    all
}

/// 1 to 6 and 8, and the edges 12 and 4,096.
fn control_heads() -> Vec<Vec<u8>> {
    let least = control(CLOCK, &[], &[]);
    let one = control(CLOCK, &[1, 2, 3], &[camera(1, [1, 2, 3]), output(2, 0x0101, 1)]);
    let mut all: Vec<Vec<u8>> = (0..=12).map(|n| least[..n].to_vec()).collect();
    all.push(one.clone());
    for bytes in [4_083, 4_084, 4_085] {
        all.push(control(1, &[], &filler(bytes)));
    }
    all.push(vec![0x0C; 4_200]);
    all.extend([with(&least, 1, 0x25), with(&least, 2, 2), with(&least, 2, 0), with(&least, 1, 0x04)]);
    all.extend([with(&least, 5, 11), with(&least, 5, 13), with(&least, 6, 1), with(&one, 5, 0)]);
    all.extend([with(&least, 0, 0), with(&least, 0, 2), with(&least, 0, 13), with(&least, 0, 11), with(&least, 0, 3)]);
    all.extend([with(&least, 11, 1), with(&one, 11, 2), with(&one, 0, 14)]);
    for (low, high) in [(0x00, 0x01), (0x10, 0x01), (0x51, 0x01), (0x50, 0x02), (0x50, 0x00)] {
        all.push(with(&with(&least, 3, low), 4, high));
    }
    // Both 7 and 8 are broken: the lower number.
    all.push(with(&with(&least, 11, 1), 3, 0));
    // A byte or two left over, a length of 0 to 3, a length past the end, another type, a second header.
    for rest in [
        vec![3],
        vec![3, 0x24],
        vec![0, 0x24, 8],
        vec![1, 0x24, 8],
        vec![2, 0x24, 8],
        vec![3, 0x24, 8],
        vec![4, 0x24, 8],
        vec![255, 0x24, 8],
    ] {
        all.push(control(1, &[], &[rest]));
    }
    all.push(control(1, &[], &[vec![5, 0x25, 2, 1, 1]]));
    all.push(control(1, &[], &[vec![3, 0x23, 1]]));
    all.push(control(1, &[], &[least.clone()]));
    all.push(control(1, &[], &[camera(1, [0; 3]), descriptor(1, &[])]));
    all
}

/// 7 and 9 to 12: every length around the right one, and the edges of 32 entities and 16 pins.
fn control_descriptors() -> Vec<Vec<u8>> {
    let mut all = Vec::new();
    let whole = |d: Vec<Vec<u8>>| control(CLOCK, &[], &d);
    let kinds = [
        camera(9, [1, 2, 3]),
        input(9, 0x0401, &[]),
        output(9, 0x0101, 1),
        selector(9, &[1, 1]),
        processing(9, 1, [4, 5, 6]),
        extension(9, &[1, 1], &[7, 8]),
        encoding(9, 1),
        descriptor(0x30, &[9, 1]),
    ];
    for d in &kinds {
        all.push(whole(vec![camera(1, [0; 3]), d.clone()]));
        all.push(whole(vec![camera(1, [0; 3]), with(d, 3, 0)]));
        all.push(whole(vec![camera(1, [0; 3]), with(d, 3, 1)]));
        // One byte longer or shorter, the rest as it was.
        for n in [d.len() - 1, d.len() + 1] {
            let mut other = d.clone();
            other.resize(n, 0);
            other[0] = n as u8;
            all.push(whole(vec![camera(1, [0; 3]), other]));
        }
        // Cut to every length down to three bytes.
        for n in 3..d.len() - 1 {
            let mut other = d[..n].to_vec();
            other[0] = n as u8;
            all.push(whole(vec![camera(1, [0; 3]), other]));
        }
    }
    // Control sizes that are not 3; a camera with a long descriptor; another input terminal with that length.
    for (d, at) in [(&kinds[0], 14), (&kinds[4], 7), (&kinds[6], 6)] {
        for size in [0, 2, 4, 255] {
            all.push(whole(vec![camera(1, [0; 3]), with(d, at, size)]));
        }
    }
    all.push(whole(vec![input(1, 0x0201, &[0; 11])]));
    all.push(whole(vec![input(1, 0x0200, &[0; 10])]));
    all.push(whole(vec![output(1, 0x0101, 2), input(2, 0x0401, &[1, 2, 3])]));
    // p and n that reach past the descriptor, though the block holds bytes there.
    for (at, value) in [(21, 3), (21, 200), (21, 0), (24, 0), (24, 9)] {
        all.push(whole(vec![camera(1, [0; 3]), with(&kinds[5], at, value), descriptor(0x31, &[1; 200])]));
    }
    for p in [0, 1, 15, 16, 17, 40] {
        all.push(whole(vec![camera(1, [0; 3]), selector(2, &vec![1; p])]));
        all.push(whole(vec![camera(1, [0; 3]), extension(2, &vec![1; p], &[])]));
    }
    // 31, 32 and 33 entities; the 33rd with an ID that was used, with ID 0, and with no pins; unknown ones do not count.
    for n in 31..=34u8 {
        all.push(whole((1..=n).map(|id| input(id, 0x0401, &[])).collect()));
    }
    let full: Vec<Vec<u8>> = (1..=32).map(|id| input(id, 0x0401, &[])).collect();
    for last in [input(5, 0x0401, &[]), input(0, 0x0401, &[]), selector(77, &[]), descriptor(0x30, &[5]), vec![9, 0x24, 3, 0, 0]] {
        let mut d = full.clone();
        d.push(last);
        all.push(whole(d));
    }
    // IDs around 64, 128 and 192, and the last ones; then IDs that are 64 apart. None is repeated, then each in turn.
    for ids in [
        vec![62, 63, 64, 65, 126, 127, 128, 129, 190, 191, 192, 193, 254, 255],
        vec![1, 65, 129, 193],
        vec![64, 128, 192],
        vec![63, 127, 191, 255],
    ] {
        let once: Vec<Vec<u8>> = ids.iter().map(|&id| input(id, 0x0401, &[])).collect();
        all.push(whole(once.clone()));
        for again in &once {
            let mut d = once.clone();
            d.push(again.clone());
            all.push(whole(d));
        }
    }
    all
}

/// The three revisions: lengths and control sizes around the right ones, by each for each; and subtype 7.
fn older() -> Vec<Vec<u8>> {
    let mut all = Vec::new();
    for revision in Revision::ALL {
        let whole = |d: &[Vec<u8>]| control_of(revision, CLOCK, &[1], d);
        all.push(whole(&[]));
        for size in [0, 1, 2, 3, 4, 31, 32, 33, 200] {
            let controls: Vec<u8> = (0..size).collect();
            let eye = camera_of(1, &controls);
            all.push(whole(&[eye.clone()]));
            for of in Revision::ALL {
                all.push(whole(&[camera_of(1, &[1, 2, 3]), processing_of(of, 2, 1, &controls)]));
            }
            // A byte longer or shorter, the size as it was; and a size that reaches past the descriptor.
            for d in [eye, processing_of(revision, 2, 2, &controls)] {
                for n in [d.len() - 1, d.len() + 1] {
                    let mut other = d.clone();
                    other.resize(n, 0);
                    other[0] = n as u8;
                    all.push(whole(&[other.clone(), descriptor(0x30, &[9; 40])]));
                }
            }
        }
        // Camera terminals that end before their control size.
        for n in 8..15 {
            let mut short = camera_of(1, &[])[..n].to_vec();
            short[0] = n as u8;
            all.push(whole(&[short, descriptor(0x30, &[0; 20])]));
        }
        // 7: an encoding unit, or unknown: of any length, with an ID that is 0 or was used, and as a source.
        let eye = camera_of(1, &[1, 2, 3]);
        all.push(whole(&[eye.clone(), encoding(2, 1), output(3, 0x0101, 2)]));
        all.push(whole(&[eye.clone(), encoding(2, 1), output(3, 0x0101, 1)]));
        all.push(whole(&[eye.clone(), encoding(1, 99)]));
        all.push(whole(&[eye.clone(), encoding(0, 1)]));
        all.push(whole(&[eye.clone(), encoding(2, 2)]));
        for rest in [vec![], vec![1], vec![0; 9], vec![3; 200]] {
            all.push(whole(&[eye.clone(), descriptor(7, &rest)]));
        }
        let mut full: Vec<Vec<u8>> = (1..=32).map(|id| input(id, 0x0401, &[])).collect();
        full.push(encoding(40, 1));
        all.push(whole(&full));
    }
    for bcd in [0x0000u16, 0x00FF, 0x0101, 0x010F, 0x0111, 0x014F, 0x0151, 0x0200, 0x1001, 0xFFFF] {
        let [low, high] = bcd.to_le_bytes();
        all.push(with(&with(&control(CLOCK, &[], &[encoding(2, 1)]), 3, low), 4, high));
    }
    all
}

/// 13 to 15.
fn control_sources() -> Vec<Vec<u8>> {
    let whole = |d: &[Vec<u8>]| control(CLOCK, &[], d);
    let eye = camera(1, [1, 2, 3]);
    let mut all = vec![
        // The P samples.
        vec![0x0C, 0x24, 1, 0x50, 1, 0x13, 0, 0, 0x6C, 0xDC, 2, 0, 7, 0x24, 4, 5, 1, 5, 0],
        vec![0x0C, 0x24, 1, 0x50, 1, 0x13, 0, 0, 0x6C, 0xDC, 2, 0, 7, 0x24, 4, 5, 1, 6, 0],
        // Source 0; one that only an unknown descriptor carries; one that comes later.
        whole(&[eye.clone(), output(2, 0x0101, 0)]),
        whole(&[eye.clone(), descriptor(0x30, &[7]), output(2, 0x0101, 7)]),
        whole(&[output(2, 0x0101, 1), eye.clone()]),
        // An output terminal as a source; one that names itself.
        whole(&[eye.clone(), output(2, 0x0101, 1), processing(3, 2, [0; 3])]),
        whole(&[output(2, 0x0101, 2)]),
        whole(&[output(2, 0x0101, 3), output(3, 0x0101, 2)]),
        // 14 before 13 in the block, and the other way round; 15 before both.
        whole(&[eye.clone(), output(2, 0x0101, 1), processing(3, 2, [0; 3]), processing(4, 99, [0; 3])]),
        whole(&[eye.clone(), processing(4, 99, [0; 3]), output(2, 0x0101, 1), processing(3, 2, [0; 3])]),
        whole(&[processing(5, 5, [0; 3]), eye.clone(), output(2, 0x0101, 1), processing(3, 2, [0; 3])]),
        whole(&[processing(5, 5, [0; 3]), processing(4, 99, [0; 3])]),
        // A unit with two paths to one source is no loop.
        whole(&[eye.clone(), processing(2, 1, [0; 3]), encoding(3, 1), selector(4, &[2, 3]), output(5, 0x0101, 4)]),
        whole(&[eye.clone(), selector(2, &[1, 1]), selector(3, &[2, 2, 1]), output(4, 0x0101, 3)]),
        // A loop that no output terminal leads to.
        whole(&[eye.clone(), output(2, 0x0101, 1), processing(3, 4, [0; 3]), processing(4, 3, [0; 3])]),
        whole(&[eye.clone(), output(2, 0x0101, 1), selector(3, &[1, 3])]),
        // Entities that only lead into a loop come first.
        whole(&[output(9, 0x0101, 8), processing(8, 3, [0; 3]), selector(3, &[4]), extension(4, &[3], &[])]),
        whole(&[selector(8, &[3, 1]), eye.clone(), encoding(3, 4), selector(4, &[5]), extension(5, &[1, 3], &[])]),
        // Two loops: the first in block order.
        whole(&[processing(2, 3, [0; 3]), processing(3, 2, [0; 3]), processing(1, 1, [0; 3])]),
        whole(&[processing(1, 1, [0; 3]), processing(2, 3, [0; 3]), processing(3, 2, [0; 3])]),
    ];
    // Chains and loops as long as a table, in both orders.
    let mut chain: Vec<Vec<u8>> = (2..=32).map(|id| processing(id, id - 1, [0; 3])).collect();
    chain.insert(0, eye);
    let mut ring = chain.clone();
    ring[0] = processing(1, 32, [0; 3]);
    for d in [chain, ring] {
        all.push(whole(&d));
        let mut back = d.clone();
        back.reverse();
        all.push(whole(&back));
    }
    all
}

/// 16, and the two kinds that have controls.
fn maps() -> Vec<Case> {
    let block = control(
        CLOCK,
        &[1],
        &[
            camera(1, [0x11, 0x22, 0x33]),
            input(2, 0x0401, &[]),
            processing(3, 1, [0x44, 0x55, 0x66]),
            selector(4, &[1, 2]),
            extension(5, &[3], &[1, 2, 3]),
            encoding(6, 5),
            output(7, 0x0101, 6),
            camera(255, [0, 0xFF, 0]),
        ],
    );
    let mut all: Vec<Case> = (0..=9).chain([254, 255]).map(|id| Case::Map(block.clone(), id)).collect();
    for revision in Revision::ALL {
        for size in [0, 1, 3, 31, 32, 33] {
            let controls: Vec<u8> = (101..101 + size).collect();
            let units = [camera_of(1, &controls), processing_of(revision, 2, 1, &controls), encoding(3, 2)];
            let block = control_of(revision, CLOCK, &[], &units);
            all.extend((0..=4).map(|id| Case::Map(block.clone(), id)));
        }
    }
    all.push(Case::Map(with(&block, 5, 0), 1));
    all.push(Case::Map(with(&block, 3, 0), 99));
    all.push(Case::Map(vec![], 1));
    // Each once more, with all that the map holds and the revision; and maps of every length.
    let mut whole: Vec<Case> = all
        .iter()
        .filter_map(|c| match c {
            Case::Map(block, id) => Some(Case::WholeMap(block.clone(), *id)),
            _ => None,
        })
        .collect();
    for revision in Revision::ALL {
        for size in 0..=32 {
            let controls: Vec<u8> = (200..200 + size).collect();
            // Behind the controls stand bytes that are no part of them.
            let after = descriptor(0x30, &[0xEE; 40]);
            let units = [camera_of(1, &controls), after.clone(), processing_of(revision, 2, 1, &controls), after];
            let block = control_of(revision, CLOCK, &[], &units);
            whole.extend((1..=3).map(|id| Case::WholeMap(block.clone(), id)));
        }
    }
    all.extend(whole);
    all
}
