//! Camera settings, document 02's request Eleven: packets are searched for among all that can be built, and the nearest number among all that are allowed.

use crate::reading::control;
use crate::reading::refusal::Refusal;

pub const SETTINGS: [&str; 4] = ["brightness", "contrast", "hue", "saturation"];
pub const REQUESTS: [&str; 6] = ["get_cur", "get_min", "get_max", "get_res", "get_def", "set_cur"];

fn refused<T>(number: u8) -> Result<T, Refusal> {
    Err(Refusal { number, offset: 0 })
}

/// The numbers of a setting's type, from the lowest to the highest.
pub fn span(setting: &str) -> (i64, i64) {
    match setting {
        "brightness" | "hue" => (-32_768, 32_767),
        "contrast" | "saturation" => (0, 65_535),
        _ => unreachable!(),
    }
}

/// A word of the data stage as a number of the setting.
pub fn number(setting: &str, word: u16) -> i64 {
    if span(setting).0 < 0 {
        i64::from(word as i16)
    } else {
        i64::from(word)
    }
}

/// Table A-13 of source document 000.
fn selector(setting: &str) -> u16 {
    match setting {
        "brightness" => 0x02,
        "contrast" => 0x03,
        "hue" => 0x06,
        "saturation" => 0x07,
        _ => unreachable!(),
    }
}

/// bmRequestType and bRequest.
fn kind(request: &str) -> [u8; 2] {
    match request {
        "set_cur" => [0b0010_0001, 0x01],
        "get_cur" => [0b1010_0001, 0x81],
        "get_min" => [0b1010_0001, 0x82],
        "get_max" => [0b1010_0001, 0x83],
        "get_res" => [0b1010_0001, 0x84],
        "get_def" => [0b1010_0001, 0x87],
        _ => unreachable!(),
    }
}

/// The packet that is built: the block's own refusal, 90, 91, and 94 by the room.
pub fn packet(block: &[u8], interface: u8, unit: u8, setting: &str, request: &str) -> Result<Vec<u8>, Refusal> {
    let control = control::read(block)?;
    let units: Vec<_> = control.entities.iter().filter(|e| e.kind == 5 && e.id == unit).collect();
    if units.is_empty() {
        return refused(90);
    }
    let d = SETTINGS.iter().position(|s| *s == setting).unwrap();
    let bits: Vec<bool> = units[0].map.iter().flatten().flat_map(|b| (0..8).map(move |i| b >> i & 1 == 1)).collect();
    if bits.get(d) != Some(&true) {
        return refused(91);
    }
    let value = selector(setting) << 8;
    let index = u16::from(unit) << 8 | u16::from(interface);
    let mut out = kind(request).to_vec();
    for word in [value, index, 2] {
        out.extend(word.to_le_bytes());
    }
    Ok(out)
}

pub fn build(block: &[u8], interface: u8, unit: u8, setting: &str, request: &str, room: &mut [u8]) -> Result<(), Refusal> {
    let packet = packet(block, interface, unit, setting, request)?;
    match room.get_mut(..8) {
        Some(front) => {
            front.copy_from_slice(&packet);
            Ok(())
        }
        None => refused(94),
    }
}

/// The unit, setting and request that build these bytes; there is at most one.
pub fn read(block: &[u8], interface: u8, bytes: &[u8]) -> Result<(u8, &'static str, &'static str), Refusal> {
    for e in control::read(block)?.entities {
        for setting in SETTINGS {
            for request in REQUESTS {
                if packet(block, interface, e.id, setting, request).map_or(false, |p| p == bytes) {
                    return Ok((e.id, setting, request));
                }
            }
        }
    }
    refused(95)
}

/// The nearest allowed number, by trying them all.
pub fn nearest(minimum: i64, maximum: i64, step: i64, wanted: i64) -> Result<i64, Refusal> {
    if minimum > maximum {
        return refused(92);
    }
    if step <= 0 {
        return refused(93);
    }
    let mut best = minimum;
    let mut n = minimum;
    while n <= maximum {
        if (n - wanted).abs() < (best - wanted).abs() {
            best = n;
        }
        n += step;
    }
    Ok(best)
}

/// The line of what a packet asks for.
pub fn asked(unit: u8, setting: &str, request: &str) -> String {
    format!("unit {unit} control {setting} request {request}\n")
}
