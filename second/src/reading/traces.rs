//! Traces: records of either size, the calls that they stand for, and what the trace programs print of them. From documents 01 and 02 (Thirteen).

use crate::reading::frames::{judge, ledger, reason_name, step, Becomes, Call, HeaderKind, Judged, Opening, Verdict};
use crate::reading::told::or_dash;
use std::fmt::Write;
use std::ops::Range;

/// How a record is laid out: its size, where its length stands, little-endian, which bytes of its head are zero, and where the transfer's bytes begin.
#[derive(Debug, PartialEq)]
pub struct Form {
    pub size: usize,
    length: Range<usize>,
    zero: Range<usize>,
    data: usize,
}

pub static SHORT: Form = Form { size: 64, length: 1..2, zero: 1..1, data: 2 };
pub static LONG: Form = Form { size: 3_076, length: 2..4, zero: 1..2, data: 4 };

/// No record begins with this byte: it is written where a converted trace stops.
pub const STOP: u8 = 0xFF;

/// The openings of the ledger program and of a replay.
pub const LEDGER: Opening = Opening { frame: 256, payload: 62, framing: 3, kind: HeaderKind::Old };
pub const REPLAY: Opening = Opening { frame: 61_440, payload: 3_072, framing: 3, kind: HeaderKind::Old };

impl Form {
    /// The longest transfer that a record holds.
    pub fn most(&self) -> usize {
        self.size - self.data
    }

    /// The record of a call whose transfer, if it has one, is not too long for it.
    pub fn record(&self, call: &Call) -> Vec<u8> {
        let none = vec![];
        let (kind, bytes) = match call {
            Call::Transfer(t) => (0, t),
            Call::Lost => (1, &none),
            Call::Close => (2, &none),
            Call::Mark => unreachable!("no caller asks for a mark"),
        };
        let mut r = vec![0; self.size];
        r[0] = kind;
        for (i, at) in self.length.clone().enumerate() {
            r[at] = (bytes.len() >> (8 * i)) as u8;
        }
        r[self.data..self.data + bytes.len()].copy_from_slice(bytes);
        r
    }

    /// The call of a record, if it is a good one.
    fn call(&self, r: &[u8]) -> Option<Call> {
        if r.len() < self.size || r[0] > 2 || r[self.zero.clone()].iter().any(|&b| b != 0) {
            return None;
        }
        let length = self.length.clone().rev().fold(0, |n, at| n * 256 + r[at] as usize);
        if length > self.most() || (r[0] != 0 && length != 0) {
            return None;
        }
        let (bytes, fill) = r[self.data..].split_at(length);
        if fill.iter().any(|&b| b != 0) {
            return None;
        }
        Some(match r[0] {
            0 => Call::Transfer(bytes.to_vec()),
            1 => Call::Lost,
            _ => Call::Close,
        })
    }

    /// The calls of a trace up to its first bad record, and the number of that one. What comes after close is bad.
    pub fn calls(&self, trace: &[u8]) -> (Vec<Call>, Option<usize>) {
        let mut all = Vec::new();
        for (i, r) in trace.chunks(self.size).enumerate() {
            let closed = all.last() == Some(&Call::Close);
            match self.call(r) {
                Some(call) if !closed => all.push(call),
                _ => return (all, Some(i + 1)),
            }
        }
        (all, None)
    }
}

#[derive(Clone, Copy, Debug, PartialEq)]
pub enum Show {
    Ledger,
    Replay,
    Frames,
}

/// What a program prints of a trace, and whether the trace has a bad record.
pub fn text(form: &Form, show: Show, opening: &Opening, trace: &[u8]) -> (String, bool) {
    let (calls, bad) = form.calls(trace);
    let v = judge(&calls, opening);
    let lines = match show {
        Show::Ledger => String::new(),
        Show::Replay => replayed(&v.frames),
        Show::Frames => listed(&v.frames),
    };
    let end = match bad {
        Some(n) => format!("bad record {n}\n"),
        None if show == Show::Frames => String::new(),
        None => billed(&v),
    };
    (lines + &end, bad.is_some())
}

/// A line for each delivered frame or still: its number, its length, and the step from the last delivered frame of film that has a stamp.
fn replayed(frames: &[Judged]) -> String {
    let mut out = String::new();
    let mut last = None;
    let mut number = 0;
    for f in frames {
        let since = match f.becomes {
            Becomes::Delivered(d) => {
                let since = last.zip(d.stamp).map(|(a, b)| step(a, b));
                last = d.stamp.or(last);
                since
            }
            Becomes::Still(_) => None,
            Becomes::Dropped(_) | Becomes::UnderWay => continue,
        };
        number += 1;
        writeln!(out, "{number} {} {}", f.bytes, or_dash(since)).unwrap();
    }
    out
}

/// A line for each frame that ended: its number, what became of it, the bytes of its data, and its first stamp.
fn listed(frames: &[Judged]) -> String {
    let mut out = String::new();
    let ended = frames.iter().filter(|f| f.becomes != Becomes::UnderWay);
    for (i, f) in ended.enumerate() {
        let fate = match f.becomes {
            Becomes::Delivered(_) => "delivered",
            Becomes::Still(_) => "still",
            Becomes::Dropped(why) => reason_name(why),
            Becomes::UnderWay => unreachable!(),
        };
        writeln!(out, "{} {fate} {} {}", i + 1, f.bytes, or_dash(f.delivery.stamp)).unwrap();
    }
    out
}

/// The accounts, each with two numbers, then the other counts.
const ACCOUNTS: [&str; 13] =
    ["delivered", "gap", "error", "clock", "long", "cut", "empty", "still", "mixed", "under way", "stray", "unreadable", "headers"];
const COUNTS: [&str; 5] = ["lost", "idle", "ticks", "backward", "untimed"];

fn billed(v: &Verdict) -> String {
    let numbers = ledger(v);
    let (pairs, counts) = numbers.split_at(2 * ACCOUNTS.len());
    let mut out = String::new();
    for (name, pair) in ACCOUNTS.iter().zip(pairs.chunks(2)) {
        writeln!(out, "{name} {} {}", pair[0], pair[1]).unwrap();
    }
    for (name, n) in COUNTS.iter().zip(counts) {
        writeln!(out, "{name} {n}").unwrap();
    }
    out
}

/// A short trace in long records, up to its first bad record: there one byte that begins no record. And the number of the bad one.
pub fn converted(trace: &[u8]) -> (Vec<u8>, Option<usize>) {
    let (calls, bad) = SHORT.calls(trace);
    let mut out: Vec<u8> = calls.iter().flat_map(|c| LONG.record(c)).collect();
    if bad.is_some() {
        out.push(STOP);
    }
    (out, bad)
}
