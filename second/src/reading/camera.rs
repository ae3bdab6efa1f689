//! The page of a camera for a person: what lsusb and v4l2-ctl show of it, in the words of the class's tables (000: 3.7.2 and 3.9.2, appendix B).
//! `s` is an accepted configuration, cut into its descriptors.

use std::fmt::Write;

/// Where the configuration stands in a file, and whether something stands behind it: a device descriptor has 18 bytes and type 1.
pub fn first(file: &[u8]) -> (bool, &[u8], bool) {
    match file {
        [18, 1, ..] if file.len() >= 18 => {
            let rest = &file[18..];
            let byte = |k: usize| rest.get(k).copied().unwrap_or(0) as usize;
            let total = byte(2) | byte(3) << 8;
            (true, &rest[..total.min(rest.len())], rest.len() > total)
        }
        _ => (false, file, false),
    }
}

/// What a page begins with.
pub fn begins(file: &[u8]) -> String {
    let (device, _, more) = first(file);
    let mut out = String::new();
    if device {
        writeln!(out, "Device {:02x}{:02x}:{:02x}{:02x}", file[9], file[8], file[11], file[10]).unwrap();
    }
    if more {
        out.push_str("further configurations follow, and only the first is read\n");
    }
    out
}

fn two(d: &[u8], at: usize) -> u32 {
    u32::from(d[at]) | u32::from(d[at + 1]) << 8
}

fn four(d: &[u8], at: usize) -> u32 {
    two(d, at) | two(d, at + 2) << 16
}

/// Frames per second, to the nearest hundredth, a half upwards.
fn rate(interval: u32) -> String {
    if interval == 0 {
        return "0.00".to_string();
    }
    let n = u64::from(interval);
    let hundredths = (2_000_000_000 + n) / (2 * n);
    format!("{}.{:02}", hundredths / 100, hundredths % 100)
}

/// A GUID as it is written: the first three fields have their low byte first.
fn guid(g: &[u8]) -> String {
    let hex = |places: &[usize]| places.iter().map(|&i| format!("{:02x}", g[i])).collect::<String>();
    format!("{{{}-{}-{}-{}-{}}}", hex(&[3, 2, 1, 0]), hex(&[5, 4]), hex(&[7, 6]), hex(&[8, 9]), hex(&[10, 11, 12, 13, 14, 15]))
}

fn letters(g: &[u8]) -> String {
    g[..4].iter().map(|b| if b.is_ascii_graphic() { char::from(*b) } else { '.' }).collect()
}

fn terminal(kind: u32) -> &'static str {
    match kind {
        0x0100 => "vendor specific",
        0x0101 => "USB streaming",
        0x0200 => "vendor specific input",
        0x0201 => "camera sensor",
        0x0202 => "sequential media input",
        0x0300 => "vendor specific output",
        0x0301 => "generic display",
        0x0302 => "sequential media output",
        0x0400 => "vendor specific external",
        0x0401 => "composite video connector",
        0x0402 => "S-video connector",
        0x0403 => "component video connector",
        _ => "not named by the class",
    }
}

const CAMERA: &str = "Scanning Mode|Auto-Exposure Mode|Auto-Exposure Priority|Exposure Time (Absolute)|Exposure Time (Relative)|Focus (Absolute)|\
Focus (Relative)|Iris (Absolute)|Iris (Relative)|Zoom (Absolute)|Zoom (Relative)|PanTilt (Absolute)|PanTilt (Relative)|Roll (Absolute)|Roll (Relative)|\
reserved (D15)|reserved (D16)|Focus, Auto|Privacy|Focus, Simple|Window|Region of Interest|reserved (D22)|reserved (D23)";

const PROCESSING: &str = "Brightness|Contrast|Hue|Saturation|Sharpness|Gamma|White Balance Temperature|White Balance Component|Backlight Compensation|Gain|\
Power Line Frequency|Hue, Auto|White Balance Temperature, Auto|White Balance Component, Auto|Digital Multiplier|Digital Multiplier Limit|\
Analog Video Standard|Analog Video Lock Status|Contrast, Auto|reserved (D19)|reserved (D20)|reserved (D21)|reserved (D22)|reserved (D23)";

/// The names of the bits that are set.
fn controls(out: &mut String, map: &[u8], names: &str) {
    writeln!(out, "    Controls ({} bytes):", map.len()).unwrap();
    for (i, name) in names.split('|').enumerate() {
        if map.get(i / 8).is_some_and(|b| b >> (i % 8) & 1 == 1) {
            writeln!(out, "      {name}").unwrap();
        }
    }
}

fn list(numbers: &[u8]) -> String {
    numbers.iter().map(|n| format!(" {n}")).collect()
}

fn entity(out: &mut String, d: &[u8], newest: bool) {
    let n = |at: usize| usize::from(d[at]);
    match d[2] {
        1 => writeln!(out, "  USB Video Class {}.{:02x}, clock {} Hz, streaming interfaces:{}", d[4], d[3], four(d, 7), list(&d[12..12 + n(11)])).unwrap(),
        2 => {
            writeln!(out, "  Entity {}: input terminal, type 0x{:04x}, {}", d[3], two(d, 4), terminal(two(d, 4))).unwrap();
            if two(d, 4) == 0x0201 {
                controls(out, &d[15..15 + n(14)], CAMERA);
            }
        }
        3 => writeln!(out, "  Entity {}: output terminal, fed by {}, type 0x{:04x}, {}", d[3], d[7], two(d, 4), terminal(two(d, 4))).unwrap(),
        4 => writeln!(out, "  Entity {}: selector unit, fed by{}", d[3], list(&d[5..5 + n(4)])).unwrap(),
        5 => {
            writeln!(out, "  Entity {}: processing unit, fed by {}", d[3], d[4]).unwrap();
            controls(out, &d[8..8 + n(7)], PROCESSING);
        }
        6 => writeln!(out, "  Entity {}: extension unit {}, {} controls, fed by{}", d[3], guid(&d[4..20]), d[20], list(&d[22..22 + n(21)])).unwrap(),
        7 if newest => writeln!(out, "  Entity {}: encoding unit, fed by {}", d[3], d[4]).unwrap(),
        _ => {}
    }
}

fn intervals(out: &mut String, d: &[u8], count: u8) {
    if count == 0 {
        let (shortest, longest, step) = (four(d, 26), four(d, 30), four(d, 34));
        writeln!(out, "      Interval: Stepwise {shortest} - {longest} x 100 ns with step {step} ({}-{} fps)", rate(longest), rate(shortest)).unwrap();
    }
    for i in 0..usize::from(count) {
        let interval = four(d, 26 + 4 * i);
        writeln!(out, "      Interval: Discrete {interval} x 100 ns ({} fps)", rate(interval)).unwrap();
    }
}

fn format(out: &mut String, d: &[u8]) {
    match d[2] {
        1 => writeln!(out, "  {} formats, from entity {}, on endpoint 0x{:02x}", d[3], d[8], d[6]).unwrap(),
        4 | 16 => {
            let how = if d[2] == 4 { "uncompressed" } else { "frame based" };
            let name = letters(&d[5..21]);
            writeln!(out, "  Format {}: '{name}' {}, {how}, {} bits per pixel, {} sizes, default {}", d[3], guid(&d[5..21]), d[21], d[4], d[22]).unwrap();
        }
        6 => writeln!(out, "  Format {}: 'MJPG' (Motion-JPEG), compressed, {} sizes, default {}", d[3], d[4], d[6]).unwrap(),
        5 | 7 => {
            let (width, height, buffer) = (two(d, 5), two(d, 7), four(d, 17));
            writeln!(out, "    Size: Discrete {width}x{height}, number {}, buffer {buffer} bytes, default {} fps", d[3], rate(four(d, 21))).unwrap();
            intervals(out, d, d[25]);
        }
        17 => {
            writeln!(out, "    Size: Discrete {}x{}, number {}, default {} fps", two(d, 5), two(d, 7), d[3], rate(four(d, 17))).unwrap();
            intervals(out, d, d[21]);
        }
        _ => {}
    }
}

fn endpoint(out: &mut String, d: &[u8]) {
    let w = two(d, 4);
    if d[3] & 3 == 2 {
        writeln!(out, "  Endpoint 0x{:02x}: bulk, {w} bytes per packet", d[2]).unwrap();
    } else {
        writeln!(out, "  Endpoint 0x{:02x}: {} bytes per microframe", d[2], (w & 0x7FF) * (1 + (w >> 11 & 3))).unwrap();
    }
}

/// The block of an interface descriptor: the class-specific descriptors straight behind it.
fn block<'a, 'b>(rest: &'b [&'a [u8]]) -> &'b [&'a [u8]] {
    let n = rest.iter().take_while(|d| d[1] == 0x24).count();
    &rest[..n]
}

/// The page of an accepted configuration, interface by interface.
pub fn page(s: &[u8]) -> String {
    let mut all: Vec<&[u8]> = vec![];
    let mut left = s;
    while let [n, ..] = left {
        let (d, rest) = left.split_at(usize::from(*n));
        all.push(d);
        left = rest;
    }
    let mut out = String::new();
    for (i, d) in all.iter().enumerate() {
        let behind = &all[i + 1..];
        match d[1] {
            2 => writeln!(out, "Configuration {}: {} interfaces, {} bytes", d[5], d[4], two(d, 2)).unwrap(),
            4 if d[5] == 14 && d[6] == 1 && d[3] == 0 => {
                writeln!(out, "VideoControl interface {}", d[2]).unwrap();
                let block = block(behind);
                let newest = block.first().is_some_and(|h| two(h, 3) == 0x0150);
                block.iter().for_each(|d| entity(&mut out, d, newest));
            }
            4 if d[5] == 14 && d[6] == 2 => {
                writeln!(out, "VideoStreaming interface {}, alternate setting {}", d[2], d[3]).unwrap();
                if d[3] == 0 {
                    block(behind).iter().for_each(|d| format(&mut out, d));
                }
                behind.iter().take_while(|d| d[1] != 4).filter(|d| d[1] == 5).for_each(|d| endpoint(&mut out, d));
            }
            _ => {}
        }
    }
    out
}
