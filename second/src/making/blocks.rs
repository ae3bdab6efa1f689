//! Builds blocks, descriptor by descriptor.

use crate::reading::control::Revision;

/// A descriptor: its length byte is set from what it holds.
pub fn descriptor(subtype: u8, rest: &[u8]) -> Vec<u8> {
    let mut d = vec![(rest.len() + 3) as u8, 0x24, subtype];
    d.extend(rest);
    d
}

/// Sets the total length, which stands at 5 in a control header and at 4 in an input header.
pub fn total(block: &mut [u8], at: usize) {
    let n = (block.len() as u16).to_le_bytes();
    if block.len() > at + 1 {
        block[at..at + 2].copy_from_slice(&n);
    }
}

pub const CONTROL_TOTAL: usize = 5;
pub const STREAMING_TOTAL: usize = 4;

/// The clock of the chosen cases.
pub const CLOCK: u32 = 48_000_000;

/// A control block of these descriptors after a header, of revision 1.5.
pub fn control(clock: u32, interfaces: &[u8], descriptors: &[Vec<u8>]) -> Vec<u8> {
    control_of(Revision::New15, clock, interfaces, descriptors)
}

pub fn control_of(revision: Revision, clock: u32, interfaces: &[u8], descriptors: &[Vec<u8>]) -> Vec<u8> {
    let mut rest = revision.bcd().to_vec();
    rest.extend([0, 0]);
    rest.extend(clock.to_le_bytes());
    rest.push(interfaces.len() as u8);
    rest.extend(interfaces);
    let mut block = descriptor(1, &rest);
    block.extend(descriptors.concat());
    total(&mut block, CONTROL_TOTAL);
    block
}

pub fn camera(id: u8, controls: [u8; 3]) -> Vec<u8> {
    camera_of(id, &controls)
}

pub fn camera_of(id: u8, controls: &[u8]) -> Vec<u8> {
    let mut rest = vec![id, 0x01, 0x02, 0, 0, 0, 0, 0, 0, 0, 0, controls.len() as u8];
    rest.extend(controls);
    descriptor(2, &rest)
}

pub fn input(id: u8, terminal: u16, more: &[u8]) -> Vec<u8> {
    let [low, high] = terminal.to_le_bytes();
    let mut rest = vec![id, low, high, 0, 0];
    rest.extend(more);
    descriptor(2, &rest)
}

pub fn output(id: u8, terminal: u16, source: u8) -> Vec<u8> {
    let [low, high] = terminal.to_le_bytes();
    descriptor(3, &[id, low, high, 0, source, 0])
}

pub fn selector(id: u8, sources: &[u8]) -> Vec<u8> {
    let mut rest = vec![id, sources.len() as u8];
    rest.extend(sources);
    rest.push(0);
    descriptor(4, &rest)
}

pub fn processing(id: u8, source: u8, controls: [u8; 3]) -> Vec<u8> {
    processing_of(Revision::New15, id, source, &controls)
}

pub fn processing_of(revision: Revision, id: u8, source: u8, controls: &[u8]) -> Vec<u8> {
    let mut rest = vec![id, source, 0, 0, controls.len() as u8];
    rest.extend(controls);
    rest.extend(vec![0; revision.behind()]);
    descriptor(5, &rest)
}

pub fn extension(id: u8, sources: &[u8], controls: &[u8]) -> Vec<u8> {
    let mut rest = vec![id];
    rest.extend([0xAB; 16]);
    rest.push(controls.len() as u8);
    rest.push(sources.len() as u8);
    rest.extend(sources);
    rest.push(controls.len() as u8);
    rest.extend(controls);
    rest.push(0);
    descriptor(6, &rest)
}

pub fn encoding(id: u8, source: u8) -> Vec<u8> {
    descriptor(7, &[id, source, 0, 3, 5, 0, 1, 5, 0, 1])
}

/// A streaming block of these descriptors after an input header for p formats with n control bytes each.
pub fn streaming(p: u8, endpoint: u8, link: u8, n: u8, descriptors: &[Vec<u8>]) -> Vec<u8> {
    let mut rest = vec![p, 0, 0, endpoint, 0, link, 0, 0, 0, n];
    rest.extend(vec![0; p as usize * n as usize]);
    let mut block = descriptor(1, &rest);
    block.extend(descriptors.concat());
    total(&mut block, STREAMING_TOTAL);
    block
}

pub const YUY2: [u8; 16] = *b"YUY2\x00\x00\x10\x00\x80\x00\x00\xaa\x00\x38\x9b\x71";
pub const NV12: [u8; 16] = *b"NV12\x00\x00\x10\x00\x80\x00\x00\xaa\x00\x38\x9b\x71";

pub fn uncompressed(index: u8, frames: u8, guid: &[u8; 16], bits: u8, default: u8) -> Vec<u8> {
    let mut rest = vec![index, frames];
    rest.extend(guid);
    rest.extend([bits, default, 0, 0, 0, 0]);
    descriptor(4, &rest)
}

pub fn mjpeg(index: u8, frames: u8, default: u8) -> Vec<u8> {
    descriptor(6, &[index, frames, 1, default, 0, 0, 0, 0])
}

pub const H264: [u8; 16] = *b"H264\x00\x00\x10\x00\x80\x00\x00\xaa\x00\x38\x9b\x71";

pub fn frame_based(index: u8, frames: u8, guid: &[u8; 16], bits: u8, default: u8, flag: u8) -> Vec<u8> {
    let mut rest = vec![index, frames];
    rest.extend(guid);
    rest.extend([bits, default, 0, 0, 0, 0, flag]);
    descriptor(0x10, &rest)
}

/// A frame of subtype 0x11 with bytes per line, k and its intervals.
pub fn line_frame(index: u8, width: u16, height: u16, line: u32, default: u32, k: u8, intervals: &[u32]) -> Vec<u8> {
    let mut rest = vec![index, 0];
    rest.extend(width.to_le_bytes());
    rest.extend(height.to_le_bytes());
    rest.extend([0; 8]);
    rest.extend(default.to_le_bytes());
    rest.push(k);
    rest.extend(line.to_le_bytes());
    rest.extend(intervals.iter().flat_map(|i| i.to_le_bytes()));
    descriptor(0x11, &rest)
}

/// A frame of subtype 5 or 7 with k and its intervals (or shortest, longest and step where k is 0).
pub fn frame(subtype: u8, index: u8, width: u16, height: u16, size: u32, default: u32, k: u8, intervals: &[u32]) -> Vec<u8> {
    let mut rest = vec![index, 0];
    rest.extend(width.to_le_bytes());
    rest.extend(height.to_le_bytes());
    rest.extend([0; 8]);
    rest.extend(size.to_le_bytes());
    rest.extend(default.to_le_bytes());
    rest.push(k);
    rest.extend(intervals.iter().flat_map(|i| i.to_le_bytes()));
    descriptor(subtype, &rest)
}

/// A probe block that asks for this format, frame, interval and sizes; its other bytes count up.
pub fn probe(format: u8, frame: u8, interval: u32, frame_size: u32, payload_size: u32) -> Vec<u8> {
    let mut p: Vec<u8> = (100..148).collect();
    p[2] = format;
    p[3] = frame;
    p[4..8].copy_from_slice(&interval.to_le_bytes());
    p[18..22].copy_from_slice(&frame_size.to_le_bytes());
    p[22..26].copy_from_slice(&payload_size.to_le_bytes());
    p
}

/// Unknown descriptors of so many bytes in all.
pub fn filler(bytes: usize) -> Vec<Vec<u8>> {
    let mut all = Vec::new();
    let mut left = bytes;
    while left > 0 {
        let n = if left > 258 {
            255
        } else if left > 255 {
            left - 3
        } else {
            left
        };
        all.push(descriptor(0x30, &vec![0x11; n - 3]));
        left -= n;
    }
    all
}

/// The block with one byte changed.
pub fn with(block: &[u8], at: usize, value: u8) -> Vec<u8> {
    let mut b = block.to_vec();
    b[at] = value;
    b
}
