//! The VideoStreaming block and the probe block, from document 01's text.

use crate::reading::control::{self, Revision};
use crate::reading::refusal::Refusal;

/// A place of an entity table. A table is input too: it may hold anything, and say any count.
#[derive(Clone, Debug, PartialEq)]
pub struct Place {
    pub id: u8,
    pub kind: u8,
    pub terminal: u16,
    pub offset: u16,
}

pub struct Table {
    pub revision: Revision,
    pub count: usize,
    pub places: Vec<Place>,
}

/// The entity table of a control block; none, and 1.5, where it is refused.
pub fn table(block: &[u8]) -> Table {
    let (revision, entities) = control::read(block).map_or((Revision::New15, vec![]), |c| (c.revision, c.entities));
    Table {
        revision,
        count: entities.len(),
        places: entities.iter().map(|e| Place { id: e.id, kind: e.kind, terminal: e.terminal, offset: e.offset as u16 }).collect(),
    }
}

#[derive(Clone, Debug, PartialEq)]
pub struct Format {
    pub kind: u8,
    pub guid: u8,
    pub bits: u8,
    pub frames: u8,
    pub default: u8,
    /// A frame-based format's variable-size flag is 1.
    pub variable: bool,
    pub offset: usize,
}

#[derive(Clone, Debug, PartialEq)]
pub struct Frame {
    pub format: usize,
    pub index: u8,
    pub width: u16,
    pub height: u16,
    pub size: u32,
    pub interval: u32,
    pub k: u8,
    pub offset: usize,
    pub offers: Offers,
}

/// The intervals that a frame descriptor offers.
#[derive(Clone, Debug, PartialEq)]
pub enum Offers {
    Range { shortest: u32, longest: u32, step: u32 },
    List(Vec<u32>),
}

impl Offers {
    /// The rules that hold whatever the default is.
    fn sound(&self) -> bool {
        match self {
            Offers::Range { shortest, longest, step } => *shortest != 0 && *step >= 1 && shortest <= longest,
            Offers::List(l) => l.iter().all(|&x| x != 0) && l.windows(2).all(|w| w[0] < w[1]),
        }
    }

    pub fn has(&self, x: u32) -> bool {
        match self {
            Offers::Range { shortest, longest, step } => x != 0 && x >= *shortest && x <= *longest && (x - shortest) % step == 0,
            Offers::List(l) => x != 0 && l.contains(&x),
        }
    }
}

#[derive(Clone, Debug, PartialEq)]
pub struct Streaming {
    pub endpoint: u8,
    pub link: u8,
    pub formats: Vec<Format>,
    pub frames: Vec<Frame>,
}

const YUY2: [u8; 16] = [0x59, 0x55, 0x59, 0x32, 0, 0, 0x10, 0, 0x80, 0, 0, 0xAA, 0, 0x38, 0x9B, 0x71];
const NV12: [u8; 16] = [0x4E, 0x56, 0x31, 0x32, 0, 0, 0x10, 0, 0x80, 0, 0, 0xAA, 0, 0x38, 0x9B, 0x71];

pub fn u32_at(d: &[u8], at: usize) -> u32 {
    u32::from_le_bytes(d[at..at + 4].try_into().unwrap())
}

fn u16_at(d: &[u8], at: usize) -> u16 {
    u16::from_le_bytes(d[at..at + 2].try_into().unwrap())
}

/// Where a frame of this subtype has k, the number of its intervals.
fn k_at(subtype: u8) -> usize {
    if subtype == 0x11 {
        21
    } else {
        25
    }
}

fn length_right(d: &[u8]) -> bool {
    let n = d.len();
    match d[2] {
        1 => n >= 13 && n == 13 + d[3] as usize * d[12] as usize,
        4 => n == 27,
        6 => n == 11,
        0x10 => n == 28,
        5 | 7 | 0x11 => n >= 26 && if d[k_at(d[2])] == 0 { n == 38 } else { n == 26 + 4 * d[k_at(d[2])] as usize },
        _ => true,
    }
}

/// Document 02, Five: whether a frame of subtype 5 can have these sizes under this format.
fn possible(format: &Format, width: u16, height: u16, size: u32) -> bool {
    let bits = match format.guid {
        1 => 16,
        2 => 12,
        _ => return true,
    };
    let picture = u64::from(width) * u64::from(height) * u64::from(bits);
    width != 0 && height != 0 && format.bits == bits && 8 * u64::from(size) >= picture
}

pub fn read(table: &Table, block: &[u8]) -> Result<Streaming, Refusal> {
    let whole = |number| Err(Refusal { number, offset: 0 });
    if table.count > 32 {
        return whole(20);
    }
    if block.len() < 13 {
        return whole(21);
    }
    if block.len() > 16384 {
        return whole(22);
    }
    if block[1] != 0x24 || block[2] != 1 {
        return whole(23);
    }
    if u16_at(block, 4) as usize != block.len() {
        return whole(24);
    }
    let mut s = Streaming { endpoint: 0, link: 0, formats: vec![], frames: vec![] };
    let mut p = 0;
    let mut at = 0;
    while at < block.len() {
        let no = |number| Err(Refusal { number, offset: at });
        let length = block[at] as usize;
        if length < 3 || at + length > block.len() {
            return no(25);
        }
        let d = &block[at..at + length];
        if d[1] != 0x24 || d[2] == 2 || (d[2] == 1 && at > 0) {
            return no(26);
        }
        if d[2] == 0x0A || d[2] == 0x0C || (0x12..=0x18).contains(&d[2]) {
            return no(27);
        }
        if !length_right(d) {
            return no(28);
        }
        match d[2] {
            1 => {
                if d[6] & 0x80 == 0 {
                    return no(29);
                }
                match table.places.iter().take(table.count).find(|e| e.id == d[8]) {
                    Some(e) if e.kind == 3 && e.terminal == 0x0101 => {}
                    _ => return no(30),
                }
                p = d[3];
                s.endpoint = d[6];
                s.link = d[8];
            }
            4 | 6 | 0x10 => {
                if d[3] as usize != s.formats.len() + 1 {
                    return no(31);
                }
                if d[2] == 0x10 && d[27] > 1 {
                    return no(40);
                }
                if s.formats.len() == 8 {
                    return no(35);
                }
                let guided = d[2] != 6;
                let guid = if !guided {
                    0
                } else if d[5..21] == YUY2 {
                    1
                } else if d[5..21] == NV12 {
                    2
                } else {
                    3
                };
                s.formats.push(Format {
                    kind: d[2],
                    guid,
                    bits: if guided { d[21] } else { 0 },
                    frames: d[4],
                    default: if guided { d[22] } else { d[6] },
                    variable: d[2] == 0x10 && d[27] == 1,
                    offset: at,
                });
            }
            5 | 7 | 0x11 => {
                let number = s.formats.len();
                if s.formats.last().map(|f| f.kind) != Some(d[2] - 1) {
                    return no(32);
                }
                let before = s.frames.iter().filter(|f| f.format == number).count();
                if d[3] as usize != before + 1 {
                    return no(33);
                }
                let (k, interval) = (d[k_at(d[2])], u32_at(d, if d[2] == 0x11 { 17 } else { 21 }));
                let offers = if k == 0 {
                    Offers::Range { shortest: u32_at(d, 26), longest: u32_at(d, 30), step: u32_at(d, 34) }
                } else {
                    Offers::List((0..k as usize).map(|i| u32_at(d, 26 + 4 * i)).collect())
                };
                if !offers.sound() || !offers.has(interval) {
                    return no(34);
                }
                let (width, height, size) = (u16_at(d, 5), u16_at(d, 7), if d[2] == 0x11 { 0 } else { u32_at(d, 17) });
                if d[2] == 5 && !possible(&s.formats[number - 1], width, height, size) {
                    return no(39);
                }
                if d[2] == 0x11 && s.formats[number - 1].variable && u32_at(d, 22) != 0 {
                    return no(40);
                }
                if s.frames.len() == 64 {
                    return no(35);
                }
                s.frames.push(Frame { format: number, index: d[3], width, height, size, interval, k, offset: at, offers });
            }
            _ => {}
        }
        at += length;
    }
    for (i, f) in s.formats.iter().enumerate() {
        if s.frames.iter().filter(|x| x.format == i + 1).count() != f.frames as usize {
            return Err(Refusal { number: 36, offset: f.offset });
        }
    }
    for f in &s.formats {
        if f.default < 1 || f.default > f.frames {
            return Err(Refusal { number: 37, offset: f.offset });
        }
    }
    if s.formats.len() != p as usize {
        return whole(38);
    }
    Ok(s)
}
