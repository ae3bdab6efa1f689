//! The VideoControl block, read from document 01's table and, for older cameras, document 02's request Four: each descriptor is split off first, then held to
//! its rules.

use crate::reading::refusal::Refusal;

#[derive(Clone, Debug, PartialEq)]
pub struct Entity {
    pub id: u8,
    pub kind: u8,
    pub terminal: u16,
    pub offset: usize,
    pub sources: Vec<u8>,
    /// This entity's control bytes, if the document gives it a map.
    pub map: Option<Vec<u8>>,
}

#[derive(Clone, Copy, Debug, PartialEq)]
pub enum Revision {
    Old10,
    Old11,
    New15,
}

impl Revision {
    pub const ALL: [Revision; 3] = [Revision::Old10, Revision::Old11, Revision::New15];

    fn of(bcd: u16) -> Option<Revision> {
        match bcd {
            0x0100 => Some(Revision::Old10),
            0x0110 => Some(Revision::Old11),
            0x0150 => Some(Revision::New15),
            _ => None,
        }
    }

    pub fn bcd(self) -> [u8; 2] {
        match self {
            Revision::Old10 => [0x00, 0x01],
            Revision::Old11 => [0x10, 0x01],
            Revision::New15 => [0x50, 0x01],
        }
    }

    pub fn name(self) -> &'static str {
        match self {
            Revision::Old10 => "1.0",
            Revision::Old11 => "1.1",
            Revision::New15 => "1.5",
        }
    }

    /// The bytes of a probe block.
    pub fn probe(self) -> usize {
        match self {
            Revision::Old10 => 26,
            Revision::Old11 => 34,
            Revision::New15 => 48,
        }
    }

    /// The bytes of a processing unit behind its controls.
    pub fn behind(self) -> usize {
        if self == Revision::Old10 {
            1
        } else {
            2
        }
    }

    fn allows(self, size: usize) -> bool {
        if self == Revision::New15 {
            size == 3
        } else {
            size <= 32
        }
    }
}

#[derive(Clone, Debug, PartialEq)]
pub struct Control {
    pub revision: Revision,
    pub clock: u32,
    pub entities: Vec<Entity>,
}

fn two(d: &[u8], at: usize) -> Option<u16> {
    Some(u16::from(*d.get(at)?) | u16::from(*d.get(at + 1)?) << 8)
}

/// Length and control size as the table has them, and what the descriptor says. `None`: number 7.
fn shape(d: &[u8], offset: usize, revision: Revision) -> Option<Shape> {
    let n = d.len();
    let byte = |k: usize| d.get(k).copied();
    match d[2] {
        1 => {
            let count = byte(11)? as usize;
            (n == 12 + count).then_some(Shape::Header)
        }
        2 => {
            if n < 8 {
                return None;
            }
            let kind = two(d, 4)?;
            let camera = kind == 0x0201;
            let mut map = None;
            if camera {
                let size = byte(14)? as usize;
                if !revision.allows(size) || n != 15 + size {
                    return None;
                }
                map = Some(d[15..].to_vec());
            }
            Some(Shape::Entity(Entity { id: d[3], kind: 2, terminal: kind, offset, sources: vec![], map }, None))
        }
        3 => {
            if n < 9 {
                return None;
            }
            Some(Shape::Entity(Entity { id: d[3], kind: 3, terminal: two(d, 4)?, offset, sources: vec![d[7]], map: None }, None))
        }
        4 => {
            let p = byte(4)? as usize;
            if n != 6 + p {
                return None;
            }
            Some(Shape::Entity(Entity { id: d[3], kind: 4, terminal: 0, offset, sources: d[5..5 + p].to_vec(), map: None }, Some(p)))
        }
        5 => {
            let size = byte(7)? as usize;
            if !revision.allows(size) || n != 8 + size + revision.behind() {
                return None;
            }
            Some(Shape::Entity(
                Entity { id: d[3], kind: 5, terminal: 0, offset, sources: vec![d[4]], map: Some(d[8..8 + size].to_vec()) },
                None,
            ))
        }
        6 => {
            let p = byte(21)? as usize;
            let size = byte(22 + p)? as usize;
            if n != 24 + p + size {
                return None;
            }
            Some(Shape::Entity(Entity { id: d[3], kind: 6, terminal: 0, offset, sources: d[22..22 + p].to_vec(), map: None }, Some(p)))
        }
        7 if revision == Revision::New15 => {
            if n != 13 || byte(6)? != 3 {
                return None;
            }
            Some(Shape::Entity(Entity { id: d[3], kind: 7, terminal: 0, offset, sources: vec![d[4]], map: None }, None))
        }
        _ => Some(Shape::Unknown),
    }
}

enum Shape {
    Header,
    Entity(Entity, Option<usize>),
    Unknown,
}

pub fn read(block: &[u8]) -> Result<Control, Refusal> {
    let whole = |number| Err(Refusal { number, offset: 0 });
    if block.len() < 12 {
        return whole(1);
    }
    if block.len() > 4096 {
        return whole(2);
    }
    if block[1] != 0x24 || block[2] != 1 {
        return whole(3);
    }
    if two(block, 5) != Some(block.len() as u16) {
        return whole(4);
    }
    // What is no revision is refused at the header, before anything is read by it.
    let named = Revision::of(two(block, 3).unwrap());
    let revision = named.unwrap_or(Revision::New15);
    let mut entities: Vec<Entity> = Vec::new();
    let mut at = 0;
    while at < block.len() {
        let no = |number| Err(Refusal { number, offset: at });
        let length = block[at] as usize;
        if length < 3 || at + length > block.len() {
            return no(5);
        }
        let d = &block[at..at + length];
        if d[1] != 0x24 || (d[2] == 1 && at != 0) {
            return no(6);
        }
        match shape(d, at, revision) {
            None => return no(7),
            Some(Shape::Header) => {
                if named.is_none() {
                    return no(8);
                }
            }
            Some(Shape::Entity(e, pins)) => {
                if e.id == 0 {
                    return no(9);
                }
                if entities.iter().any(|other| other.id == e.id) {
                    return no(10);
                }
                if entities.len() == 32 {
                    return no(11);
                }
                if let Some(p) = pins {
                    if p == 0 || p > 16 {
                        return no(12);
                    }
                }
                entities.push(e);
            }
            Some(Shape::Unknown) => {}
        }
        at += length;
    }
    sources(&entities)?;
    let clock = u32::from_le_bytes([block[7], block[8], block[9], block[10]]);
    Ok(Control { revision, clock, entities })
}

/// Numbers 13 to 15, each over all entities in block order before the next.
fn sources(entities: &[Entity]) -> Result<(), Refusal> {
    let find = |id: u8| entities.iter().position(|e| e.id == id);
    for e in entities {
        if e.sources.iter().any(|&s| find(s).is_none()) {
            return Err(Refusal { number: 13, offset: e.offset });
        }
    }
    for e in entities {
        if e.sources.iter().any(|&s| entities[find(s).unwrap()].kind == 3) {
            return Err(Refusal { number: 14, offset: e.offset });
        }
    }
    // A search from every entity: which ones can be come back to?
    for (i, e) in entities.iter().enumerate() {
        let mut seen = vec![false; entities.len()];
        let mut open: Vec<usize> = e.sources.iter().map(|&s| find(s).unwrap()).collect();
        while let Some(j) = open.pop() {
            if j == i {
                return Err(Refusal { number: 15, offset: e.offset });
            }
            if !std::mem::replace(&mut seen[j], true) {
                open.extend(entities[j].sources.iter().map(|&s| find(s).unwrap()));
            }
        }
    }
    Ok(())
}

/// The control-map reader.
pub fn map(block: &[u8], id: u8) -> Result<Vec<u8>, Refusal> {
    let control = read(block)?;
    control.entities.into_iter().find(|e| e.id == id).and_then(|e| e.map).ok_or(Refusal { number: 16, offset: 0 })
}

/// The line of a unit's controls.
pub fn controls(bytes: &[u8]) -> String {
    let numbers: String = bytes.iter().map(|b| format!(" {b}")).collect();
    format!("controls{numbers}\n")
}
