//! The whole configuration, from document 02's request One: it is split into its descriptors first, then asked number by number.

use crate::reading::control;
use crate::reading::refusal::Refusal;
use crate::reading::streaming::{self, table, Table};
use std::collections::HashMap;

/// A descriptor, and where it stands.
struct Piece<'a> {
    at: usize,
    bytes: &'a [u8],
}

impl Piece<'_> {
    fn kind(&self) -> u8 {
        self.bytes[1]
    }

    /// A video interface of this subclass.
    fn video(&self, subclass: u8) -> bool {
        self.kind() == 4 && self.bytes[5] == 0x0E && self.bytes[6] == subclass
    }

    fn number(&self) -> u8 {
        self.bytes[2]
    }

    fn setting(&self) -> u8 {
        self.bytes[3]
    }

    fn end(&self) -> usize {
        self.at + self.bytes.len()
    }
}

#[derive(Clone, Debug, PartialEq)]
pub struct Setting {
    pub number: u8,
    pub bytes: u32,
}

#[derive(Clone, Debug, PartialEq)]
pub struct Stream {
    pub interface: u8,
    pub offset: usize,
    pub length: usize,
    pub endpoint: u8,
    pub settings: Vec<Setting>,
}

#[derive(Clone, Debug, PartialEq)]
pub struct Configuration {
    pub interface: u8,
    pub offset: usize,
    pub length: usize,
    pub streams: Vec<Stream>,
}

fn refuse<T>(number: u8, offset: usize) -> Result<T, Refusal> {
    Err(Refusal { number, offset })
}

/// 70.
fn split(s: &[u8]) -> Result<Vec<Piece<'_>>, Refusal> {
    if s.len() < 9 || s.len() > 32_768 || s[1] != 2 {
        return refuse(70, 0);
    }
    let mut all = Vec::new();
    let mut rest = s;
    while let Some(&n) = rest.first() {
        let at = s.len() - rest.len();
        let n = n as usize;
        let least = match rest.get(1) {
            Some(2 | 4) => 9,
            Some(5) => 7,
            _ => 2,
        };
        if n < least || n > rest.len() {
            return refuse(70, at);
        }
        let (bytes, more) = rest.split_at(n);
        all.push(Piece { at, bytes });
        rest = more;
    }
    Ok(all)
}

/// Where the block behind a piece stands: its 0x24 descriptors straight after it.
fn block(all: &[Piece], i: usize) -> (usize, usize) {
    let start = all[i].end();
    let length = all[i + 1..].iter().take_while(|p| p.kind() == 0x24).map(|p| p.bytes.len()).sum();
    (start, length)
}

/// Bytes per microframe of the setting whose interface descriptor is piece i.
fn bytes(all: &[Piece], i: usize, endpoint: u8) -> u32 {
    let own = all[i + 1..].iter().take_while(|p| p.kind() != 4);
    let size = own.filter(|p| p.kind() == 5 && p.bytes[2] == endpoint).map(|p| u16::from_le_bytes([p.bytes[4], p.bytes[5]])).next();
    size.map_or(0, |w| u32::from(w & 0x07FF) * (1 + u32::from(w >> 11 & 3)))
}

/// 75, descriptor by descriptor.
fn crowded(all: &[Piece]) -> Option<usize> {
    let mut zero = 0;
    let mut settings: HashMap<u8, usize> = HashMap::new();
    for p in all.iter().filter(|p| p.video(2)) {
        let of = settings.entry(p.number()).or_default();
        *of += 1;
        zero += usize::from(p.setting() == 0);
        if *of > 32 || (p.setting() == 0 && zero > 8) {
            return Some(p.at);
        }
    }
    None
}

/// A block's own refusal, at its place in the configuration.
fn own<T>(read: Result<T, Refusal>, start: usize) -> Result<T, Refusal> {
    read.map_err(|r| Refusal { number: r.number, offset: start + r.offset })
}

pub fn read(s: &[u8]) -> Result<Configuration, Refusal> {
    let all = split(s)?;
    if u16::from_le_bytes([s[2], s[3]]) as usize != s.len() {
        return refuse(71, 0);
    }
    let controls: Vec<usize> = (0..all.len()).filter(|&i| all[i].video(1) && all[i].setting() == 0).collect();
    let own_control = match controls[..] {
        [] => return refuse(72, 0),
        [one] => one,
        [_, second, ..] => return refuse(72, all[second].at),
    };
    if let Some(at) = crowded(&all) {
        return refuse(75, at);
    }
    let (offset, length) = block(&all, own_control);
    let bytes_of_control = &s[offset..offset + length];
    own(control::read(bytes_of_control), offset)?;
    let entities: Table = table(bytes_of_control);
    let listed: Vec<usize> = (0..all.len()).filter(|&i| all[i].video(2) && all[i].setting() == 0).collect();
    let entries = &bytes_of_control[12..12 + bytes_of_control[11] as usize];
    if !entries.iter().all(|&n| listed.iter().any(|&i| all[i].number() == n)) {
        return refuse(73, offset);
    }
    let mut streams = Vec::new();
    for &i in &listed {
        let (offset, length) = block(&all, i);
        let read = own(streaming::read(&entities, &s[offset..offset + length]), offset)?;
        let same = (0..all.len()).filter(|&k| all[k].video(2) && all[k].number() == all[i].number());
        let settings = same.map(|k| Setting { number: all[k].setting(), bytes: bytes(&all, k, read.endpoint) }).collect();
        streams.push(Stream { interface: all[i].number(), offset, length, endpoint: read.endpoint, settings });
    }
    Ok(Configuration { interface: all[own_control].number(), offset, length, streams })
}

/// The setting for a payload size: of those that hold it the one with the fewest bytes, then the lowest number. 74 where there is none.
pub fn pick(s: &[u8], interface: u8, payload: u32) -> Result<Setting, Refusal> {
    let c = read(s)?;
    let of = c.streams.iter().find(|x| x.interface == interface);
    let holding = of.iter().flat_map(|x| &x.settings).filter(|x| x.bytes >= payload);
    holding.min_by_key(|x| (x.bytes, x.number)).cloned().ok_or(Refusal { number: 74, offset: 0 })
}
