//! A session's record, call by call: any record, which may hold anything. Documents 01 and 02 say what each call changes.

use crate::reading::frames::{handed_out, sort, step, Becomes, Call, Delivery, HeaderKind, Opening, Sort};
use crate::reading::sizes::sizes;
use crate::reading::told::{hash, hex, or_dash, Told};
use std::fmt::Write;

/// A fault is its number in the input of the answers program, 0 for none.
#[derive(Clone, Debug, PartialEq)]
pub enum Phase {
    Fresh,
    Under { fid: bool, fault: u8, bytes: u64, fill: u64, stamp: Option<u32>, still: bool, layer: Option<u16> },
    Past(bool),
}

#[derive(Clone, Debug)]
pub struct Record {
    pub frame: u64,
    pub payload: u64,
    pub framing: u8,
    pub kind: HeaderKind,
    pub closed: bool,
    pub taken: u32,
    pub phase: Phase,
    pub gap: bool,
    pub numbers: [u64; 31],
    pub last: Option<u32>,
}

pub const GAP: u8 = 1;
pub const ERROR: u8 = 2;
pub const CLOCK: u8 = 3;
pub const LONG: u8 = 4;
pub const CUT: u8 = 5;
pub const EMPTY: u8 = 6;
pub const MIXED: u8 = 9;

/// The faults, and what a record may hold as one.
pub const FAULTS: [u8; 7] = [GAP, ERROR, CLOCK, LONG, CUT, EMPTY, MIXED];

pub fn fault_name(fault: u8) -> &'static str {
    ["sound", "gap", "error", "clock", "long", "cut", "empty", "", "", "mixed"][fault as usize]
}

/// The accounts and counts that are no frame's reason, by their place in print.
const DELIVERED: usize = 0;
const STILL: usize = 7;
const STRAY: usize = 10;
const UNREADABLE: usize = 11;
const HEADERS: usize = 12;
const LOST: usize = 26;
const IDLE: usize = 27;
const TICKS: usize = 28;
const BACKWARD: usize = 29;
const UNTIMED: usize = 30;

fn account(fault: u8) -> usize {
    if fault == MIXED {
        8
    } else {
        fault as usize
    }
}

impl Record {
    /// What an opening that is not refused gives; a refused one gives no sizes, and is closed.
    pub fn opened(o: Option<&Opening>) -> Record {
        let none = Opening { frame: 0, payload: 0, framing: 0, kind: HeaderKind::Old };
        let it = o.unwrap_or(&none);
        Record {
            frame: it.frame as u64,
            payload: it.payload as u64,
            framing: it.framing,
            kind: it.kind,
            closed: o.is_none(),
            taken: 0,
            phase: Phase::Fresh,
            gap: false,
            numbers: [0; 31],
            last: None,
        }
    }

    pub fn opening(&self) -> Opening {
        Opening { frame: self.frame as usize, payload: self.payload as usize, framing: self.framing, kind: self.kind }
    }

    /// The numbers with the frame under way in its account, whatever the record holds there.
    fn shown(&self) -> Vec<u64> {
        let mut numbers = self.numbers.to_vec();
        numbers[18..20].fill(0);
        if let Phase::Under { bytes, .. } = self.phase {
            numbers[18] = 1;
            numbers[19] = bytes;
        }
        numbers
    }

    /// The line of the record.
    pub fn line(&self) -> String {
        let kind = if self.kind == HeaderKind::Vp8 { "vp8" } else { "old" };
        let phase = match &self.phase {
            Phase::Fresh => "fresh".to_string(),
            Phase::Past(fid) => format!("past {}", u8::from(*fid)),
            Phase::Under { fid, fault, bytes, fill, stamp, still, layer } => {
                let (fid, still, fault) = (u8::from(*fid), u8::from(*still), fault_name(*fault));
                format!("under {fid} {still} {fault} {bytes} {fill} {} {}", or_dash(*stamp), or_dash(*layer))
            }
        };
        let (closed, gap) = (u8::from(self.closed), u8::from(self.gap));
        let sizes = format!("{} {} {}", self.frame, self.payload, self.framing);
        format!("record {sizes} {kind} {closed} {} {} {gap} {phase}\n", self.taken, or_dash(self.last))
    }

    /// Rule 50, word for word.
    pub fn broken(&self) -> bool {
        let taken = u128::from(self.taken);
        if sizes(self.frame, self.payload).is_err() {
            return true;
        }
        if let Phase::Under { fault, bytes, fill, .. } = self.phase {
            if fill > self.frame || (fault == 0 && fill != bytes) {
                return true;
            }
        }
        self.shown().iter().map(|&n| u128::from(n)).enumerate().any(|(i, n)| match i {
            i if i < 26 && i % 2 == 1 => n > 65_536 * taken,
            TICKS => n > (1 << 31) * taken,
            _ => n > taken,
        })
    }

    /// 50; then 53, 52, 51, 55 as far as the call meets them.
    fn refusal(&self, call: &Call, room: usize) -> Option<u8> {
        if self.broken() {
            return Some(50);
        }
        if self.closed {
            return Some(53);
        }
        if *call != Call::Close && self.taken == u32::MAX {
            return Some(52);
        }
        match call {
            Call::Transfer(_) if (room as u64) < self.frame => Some(51),
            Call::Transfer(t) if t.len() > 65_536 => Some(55),
            _ => None,
        }
    }

    fn add(&mut self, account: usize, bytes: u64) {
        self.numbers[2 * account] += 1;
        self.numbers[2 * account + 1] += bytes;
    }

    /// A frame that is whole: a still is billed apart and has no part in the time.
    fn enter(&mut self, still: bool, bytes: u64, delivery: Delivery) -> String {
        if still {
            self.add(STILL, bytes);
            return handed_out(Becomes::Still(delivery), bytes as usize).unwrap();
        }
        self.add(DELIVERED, bytes);
        match (self.last, delivery.stamp) {
            (_, None) => self.numbers[UNTIMED] += 1,
            (Some(a), Some(b)) if step(a, b) < 0 => self.numbers[BACKWARD] += 1,
            (Some(a), Some(b)) => self.numbers[TICKS] += step(a, b) as u64,
            (None, Some(_)) => {}
        }
        self.last = delivery.stamp.or(self.last);
        handed_out(Becomes::Delivered(delivery), bytes as usize).unwrap()
    }

    /// An unreadable or lost transfer.
    fn missing(&mut self) {
        self.gap = true;
        if let Phase::Under { fault, .. } = &mut self.phase {
            if *fault == 0 {
                *fault = GAP;
            }
        }
    }

    /// One call, and what it answers. What is refused changes nothing.
    pub fn call(&mut self, call: &Call, buffer: &mut [u8]) -> String {
        if let Some(k) = self.refusal(call, buffer.len()) {
            return format!("refused {k}");
        }
        match call {
            Call::Transfer(t) => self.take(t, buffer),
            Call::Lost => {
                self.taken += 1;
                self.numbers[LOST] += 1;
                self.missing();
                "lost noted".to_string()
            }
            Call::Close => {
                self.closed = true;
                let why = match self.phase {
                    Phase::Under { fid, fault, bytes, .. } => {
                        let why = if fault == 0 { CUT } else { fault };
                        self.add(account(why), bytes);
                        self.phase = Phase::Past(fid);
                        fault_name(why)
                    }
                    _ => "none",
                };
                format!("closed {why}")
            }
            Call::Mark => unreachable!("no caller asks for a mark"),
        }
    }

    fn take(&mut self, t: &[u8], buffer: &mut [u8]) -> String {
        let opening = self.opening();
        match sort(t, &opening) {
            Sort::Idle => {
                self.taken += 1;
                self.numbers[IDLE] += 1;
                "taken ended none fate idle".to_string()
            }
            Sort::Unreadable(k) => {
                self.taken += 1;
                self.add(UNREADABLE, t.len() as u64);
                self.missing();
                format!("taken ended none fate unreadable {k}")
            }
            Sort::Readable { fid, .. } => {
                if let Phase::Under { fid: f, fault: 0, bytes, stamp, still, layer, .. } = self.phase {
                    if !opening.sends_eof() && f != fid && bytes > 0 {
                        self.phase = Phase::Past(f);
                        return format!("handed {}", self.enter(still, bytes, Delivery { stamp, layer }));
                    }
                }
                self.read(t, buffer)
            }
        }
    }

    /// A readable transfer that hands nothing out.
    fn read(&mut self, t: &[u8], buffer: &mut [u8]) -> String {
        let opening = self.opening();
        let Sort::Readable { fid, eof, still: bit, error, stamp: own, layer: named, header } = sort(t, &opening) else { unreachable!() };
        let data = &t[header..];
        let gap = std::mem::replace(&mut self.gap, false);
        self.taken += 1;
        self.add(HEADERS, header as u64);
        let mut ended = "none";
        // The frame that it joins: the one under way, or a new one.
        let (mut fault, mut bytes, mut fill, mut first, mut still, mut last) = (if gap { GAP } else { 0 }, 0, 0, None, bit, None);
        match self.phase {
            Phase::Past(f) if f == fid => {
                self.add(STRAY, data.len() as u64);
                return "taken ended none fate stray".to_string();
            }
            Phase::Under { fid: f, fault: a, bytes: b, fill: c, stamp: d, still: e, layer: g } if f == fid => {
                (fault, bytes, fill, first, still, last) = (a, b, c, d, e, g);
            }
            Phase::Under { fault, bytes, .. } => {
                // Without fault: cut where EOF should have come; else it has no data, or it would have been handed out.
                let why = match fault {
                    0 if opening.sends_eof() => CUT,
                    0 => EMPTY,
                    k => k,
                };
                self.add(account(why), bytes);
                ended = fault_name(why);
            }
            Phase::Past(_) | Phase::Fresh => {}
        }
        bytes += data.len() as u64;
        let clock = first.is_some() && own.is_some() && first != own;
        for (broken, why) in [(error, ERROR), (clock, CLOCK), (bit != still, MIXED), (bytes > self.frame, LONG)] {
            if fault == 0 && broken {
                fault = why;
            }
        }
        first = first.or(own);
        last = named.or(last);
        if fault == 0 {
            buffer[fill as usize..fill as usize + data.len()].copy_from_slice(data);
            fill += data.len() as u64;
        }
        if !(eof && opening.sends_eof()) {
            self.phase = Phase::Under { fid, fault, bytes, fill, stamp: first, still, layer: last };
            return format!("taken ended {ended} fate kept");
        }
        self.phase = Phase::Past(fid);
        let why = if fault == 0 && bytes == 0 { EMPTY } else { fault };
        let fate = if why != 0 {
            self.add(account(why), bytes);
            format!("dropped {}", fault_name(why))
        } else {
            self.enter(still, bytes, Delivery { stamp: first, layer: last })
        };
        format!("taken ended {ended} fate {fate}")
    }
}

/// All that is printed of a list of calls on a record.
pub fn follow(record: &Record, initial: &[u8], list: &[Call], told: Told) -> String {
    let mut r = record.clone();
    let mut buffer = initial.to_vec();
    let mut out = String::new();
    for (i, call) in list.iter().enumerate() {
        out += &r.call(call, &mut buffer);
        out += &told.after(list.len() - i, &buffer);
    }
    let numbers: String = r.shown().iter().map(|n| format!(" {n}")).collect();
    writeln!(out, "ledger{numbers}").unwrap();
    if buffer.len() <= 64 {
        writeln!(out, "buffer {}", hex(&buffer)).unwrap();
    }
    out + &r.line()
}

/// What take, lost and close say to a record as it stands.
pub fn forged(r: &Record, buffer: &[u8], transfer: &[u8]) -> String {
    let mut buffer = buffer.to_vec();
    let mut say = |call: Call| {
        let said = r.clone().call(&call, &mut buffer);
        if said.starts_with("refused") || said.starts_with("handed") {
            said
        } else {
            "taken".to_string()
        }
    };
    let take = say(Call::Transfer(transfer.to_vec()));
    let (lost, close) = (say(Call::Lost), say(Call::Close));
    format!("take {take} hash {}\nlost {lost}\nclose {close}\n", hash(&buffer))
}

/// A ledger's record: forty places of eight bytes, little-endian, in the order of print; all behind the 31 used ones zero.
const PLACES: usize = 40;

pub fn laid(numbers: &[u64]) -> Vec<u8> {
    let mut bytes = vec![0; 8 * PLACES];
    for (i, n) in numbers.iter().enumerate() {
        bytes[8 * i..8 * i + 8].copy_from_slice(&n.to_le_bytes());
    }
    bytes
}

/// The numbers that a record holds, or 54.
fn held(bytes: &[u8]) -> Option<[u64; 31]> {
    if bytes.len() != 8 * PLACES || bytes[8 * 31..].iter().any(|&b| b != 0) {
        return None;
    }
    Some(std::array::from_fn(|i| u64::from_le_bytes(bytes[8 * i..8 * i + 8].try_into().unwrap())))
}

/// One call on a lent record, with the rest of the session beside it: what it answers, and all that it leaves.
pub fn lent(bytes: &[u8], rest: &Record, buffer: &[u8], call: &Call) -> String {
    let mut record = bytes.to_vec();
    let mut r = rest.clone();
    let mut buffer = buffer.to_vec();
    let said = match held(bytes) {
        None => "refused 54".to_string(),
        Some(numbers) => {
            r.numbers = numbers;
            r.call(call, &mut buffer)
        }
    };
    if !said.starts_with("refused") {
        record = laid(&r.shown());
    }
    let ledger = match held(&record) {
        None => "ledger refused 54".to_string(),
        Some(numbers) => "ledger".to_string() + &numbers.iter().map(|n| format!(" {n}")).collect::<String>(),
    };
    format!("{said} hash {}\nbytes hash {}\n{ledger}\n{}", hash(&buffer), hash(&record), r.line())
}
