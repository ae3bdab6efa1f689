//! What the programs print, and their status: from documents 01 and 02, and the words from docs/NUMBERS.md.

use crate::reading::camera;
use crate::reading::configuration;
use crate::reading::control::{self, controls};
use crate::reading::frames::Opening;
use crate::reading::probe::{check, fields};
use crate::reading::refusal::Refusal;
use crate::reading::sender::{self, Frame};
use crate::reading::setup::{self, asked, REQUESTS, SETTINGS};
use crate::reading::sizes::sizes;
use crate::reading::streaming::{self, table};
use crate::reading::traces::{self, Form, Show, LEDGER, LONG, REPLAY, SHORT, STOP};
use std::fmt::{self, Debug, Formatter, Write};

/// What is written to standard output and to standard error, and the status: 0 answered, 1 refused or a bad record, 2 a wrong call. What a wrong call
/// writes to standard error is not looked at.
#[derive(PartialEq)]
pub struct Printed {
    pub text: Vec<u8>,
    pub aside: String,
    pub status: i32,
}

impl Debug for Printed {
    fn fmt(&self, f: &mut Formatter) -> fmt::Result {
        write!(f, "status {}, {:?}, aside {:?}", self.status, String::from_utf8_lossy(&self.text), self.aside)
    }
}

fn answered(text: String) -> Printed {
    Printed { text: text.into_bytes(), aside: String::new(), status: 0 }
}

/// Bytes, and what is said aside where they stop short.
fn stopped(text: Vec<u8>, aside: Option<String>) -> Printed {
    let status = i32::from(aside.is_some());
    Printed { text, aside: aside.unwrap_or_default(), status }
}

fn refused(text: String) -> Printed {
    Printed { status: 1, ..answered(text) }
}

fn wrong() -> Printed {
    Printed { status: 2, ..answered(String::new()) }
}

/// A decimal number from 0 to 255.
fn small(word: &str) -> Option<u8> {
    word.parse().ok().filter(|_| word.bytes().all(|b| b.is_ascii_digit()))
}

/// A decimal number of 32 bits, zeros in front allowed.
fn number(word: &str) -> Option<u32> {
    word.parse().ok().filter(|_| word.bytes().all(|b| b.is_ascii_digit()))
}

/// Each number with its words, from the tables of docs/NUMBERS.md.
pub struct Words(Vec<(u8, String)>);

impl Words {
    pub fn load(page: &str) -> Result<Words, String> {
        let text = std::fs::read_to_string(page).map_err(|e| format!("{page}: {e}"))?;
        let row = |line: &str| {
            let cells: Vec<&str> = line.split('|').map(str::trim).collect();
            Some((cells.get(1)?.parse().ok()?, cells.get(2)?.to_string()))
        };
        Ok(Words(text.lines().filter_map(row).collect()))
    }

    fn of(&self, number: u8) -> &str {
        self.0.iter().find(|(n, _)| *n == number).map_or("no words on the page", |(_, words)| words)
    }

    /// A refusal: its line, and its words below.
    fn refused(&self, r: &Refusal) -> Printed {
        refused(format!("refused {} at {}\n{}\n", r.number, r.offset, self.of(r.number)))
    }

    /// A refusal that is not of a place in a block.
    fn without_place(&self, number: u8) -> String {
        format!("refused {number}\n{}\n", self.of(number))
    }

    /// `replay` and `frames`, with the sizes that are given, if they are.
    pub fn replay(&self, show: Show, form: &Form, given: Option<[&str; 2]>, trace: &[u8]) -> Printed {
        let opening = match given.map(|words| words.map(number)) {
            None => REPLAY,
            Some([Some(frame), Some(payload)]) => Opening { frame: frame as usize, payload: payload as usize, ..REPLAY },
            Some(_) => return wrong(),
        };
        match sizes(opening.frame as u64, opening.payload as u64) {
            Ok(()) => read(form, show, &opening, trace),
            Err(r) => refused(self.without_place(r.number)),
        }
    }

    /// `send`: the frames are the files, and the stamps, if there are any, so many ticks apart. What stops short ends with a byte that begins no record.
    pub fn send(&self, payload: &str, ticks: Option<&str>, files: &[Vec<u8>]) -> Printed {
        let (Some(payload), Some(ticks)) = (number(payload), ticks.map_or(Some(None), |word| number(word).map(Some))) else {
            return wrong();
        };
        if payload as usize > LONG.most() || files.is_empty() {
            return wrong();
        }
        let stamp = |i: usize| ticks.map(|t| t.wrapping_mul(i as u32));
        let frames: Vec<Frame> = files.iter().enumerate().map(|(i, bytes)| Frame { stamp: stamp(i), bytes: bytes.clone() }).collect();
        let (mut text, refusal) = sender::trace(&frames, payload as usize);
        if refusal.is_some() {
            text.push(STOP);
        }
        stopped(text, refusal.map(|k| self.without_place(k)))
    }

    fn told(&self, read: Result<String, Refusal>) -> Printed {
        match read {
            Ok(text) => answered(text),
            Err(r) => self.refused(&r),
        }
    }

    pub fn control(&self, block: &[u8]) -> Printed {
        self.told(control::read(block).map(|c| {
            let mut out = format!("accepted\nrevision {}\nclock {}\n", c.revision.name(), c.clock);
            for e in &c.entities {
                writeln!(out, "entity {} {} {} {}", e.id, e.kind, e.terminal, e.offset).unwrap();
            }
            out
        }))
    }

    /// The ID is a word: a decimal number from 0 to 255, zeros in front allowed. Anything else is a wrong call.
    pub fn map(&self, block: &[u8], id: &str) -> Printed {
        let digits = !id.is_empty() && id.bytes().all(|b| b.is_ascii_digit());
        match id.parse::<u8>() {
            Ok(id) if digits => self.told(control::map(block, id).map(|bytes| controls(&bytes))),
            _ => wrong(),
        }
    }

    /// `setup build`: interface, unit, setting and request are words.
    pub fn build(&self, block: &[u8], words: [&str; 4]) -> Printed {
        let [interface, unit, setting, request] = words;
        match (small(interface), small(unit)) {
            (Some(interface), Some(unit)) if SETTINGS.contains(&setting) && REQUESTS.contains(&request) => {
                let bytes = |p: Vec<u8>| p.iter().map(|b| format!(" {b}")).collect::<String>();
                self.told(setup::packet(block, interface, unit, setting, request).map(|p| format!("packet{}\n", bytes(p))))
            }
            _ => wrong(),
        }
    }

    /// `setup read`.
    pub fn read_back(&self, block: &[u8], interface: &str, bytes: &[u8]) -> Printed {
        match small(interface) {
            Some(i) => self.told(setup::read(block, i, bytes).map(|(u, c, q)| asked(u, c, q))),
            None => wrong(),
        }
    }

    /// `setup nearest`: the numbers are words, and each must be one of the setting's type.
    pub fn nearest(&self, setting: &str, words: [&str; 4]) -> Printed {
        if !SETTINGS.contains(&setting) {
            return wrong();
        }
        let (lowest, highest) = setup::span(setting);
        let number = |w: &str| {
            let digits = if lowest < 0 { w.strip_prefix('-').unwrap_or(w) } else { w };
            let plain = !digits.is_empty() && digits.bytes().all(|b| b.is_ascii_digit());
            w.parse::<i64>().ok().filter(|n| plain && (lowest..=highest).contains(n))
        };
        match words.map(number) {
            [Some(minimum), Some(maximum), Some(step), Some(wanted)] => {
                self.told(setup::nearest(minimum, maximum, step, wanted).map(|n| format!("number {n}\n")))
            }
            _ => wrong(),
        }
    }

    /// The control block's own refusal comes first.
    pub fn streaming(&self, control: &[u8], block: &[u8]) -> Printed {
        self.told(control::read(control).and_then(|_| streaming::read(&table(control), block)).map(|s| {
            let mut out = format!("accepted\nendpoint {}\nlink {}\n", s.endpoint, s.link);
            for f in &s.formats {
                writeln!(out, "format {} {} {} {} {} {}", f.kind, f.guid, f.bits, f.frames, f.default, f.offset).unwrap();
            }
            for f in &s.frames {
                writeln!(out, "frame {} {} {} {} {} {} {}", f.format, f.width, f.height, f.size, f.interval, f.k, f.offset).unwrap();
            }
            out
        }))
    }

    /// The page of a camera: what stands in front, then the page or the refusal.
    pub fn camera(&self, file: &[u8]) -> Printed {
        let (_, s, _) = camera::first(file);
        let told = self.told(configuration::read(s).map(|_| camera::page(s)));
        Printed { text: [camera::begins(file).into_bytes(), told.text].concat(), ..told }
    }

    /// A file is a configuration, or what Linux keeps of a device.
    pub fn configuration(&self, file: &[u8]) -> Printed {
        let (_, s, _) = camera::first(file);
        self.told(configuration::read(s).map(|c| {
            let mut out = format!("accepted\ncontrol {} {} {}\n", c.interface, c.offset, c.length);
            for x in &c.streams {
                writeln!(out, "streaming {} {} {} {}", x.interface, x.offset, x.length, x.endpoint).unwrap();
                for y in &x.settings {
                    writeln!(out, "setting {} {}", y.number, y.bytes).unwrap();
                }
            }
            out
        }))
    }

    /// The interface and the payload size are words: decimal numbers of their types. Anything else is a wrong call. An interface that is not there is told aside.
    pub fn setting(&self, file: &[u8], interface: &str, payload: &str) -> Printed {
        let (_, s, _) = camera::first(file);
        let digits = |w: &str| !w.is_empty() && w.len() <= 16 && w.bytes().all(|b| b.is_ascii_digit());
        match (interface.parse::<u8>(), payload.parse::<u32>()) {
            (Ok(i), Ok(p)) if digits(interface) && digits(payload) => {
                let told = self.told(configuration::pick(s, i, p).map(|x| format!("setting {} {}\n", x.number, x.bytes)));
                let there = configuration::read(s).map_or(true, |c| c.streams.iter().any(|x| x.interface == i));
                let aside = if there { "" } else { "INTERFACE: the configuration has no streaming interface of this number\n" };
                Printed { aside: aside.to_string(), ..told }
            }
            _ => wrong(),
        }
    }

    pub fn probe(&self, control: &[u8], block: &[u8], probe: &[u8]) -> Printed {
        let checked = control::read(control).and_then(|_| check(&table(control), block, probe));
        self.told(checked.and_then(|()| fields(table(control).revision, probe)).map(|all| {
            let (fields, layout) = all.split_at(FIELDS.len());
            let mut out = String::from("accepted\n");
            for (name, n) in FIELDS.iter().zip(fields) {
                writeln!(out, "{name} {n}").unwrap();
            }
            out += "layout";
            for n in layout {
                write!(out, " {n}").unwrap();
            }
            out + "\n"
        }))
    }
}

/// The fields of a probe block before its layout, in the document's order.
const FIELDS: [&str; 21] = [
    "hint",
    "format",
    "frame",
    "interval",
    "key rate",
    "P rate",
    "quality",
    "window",
    "delay",
    "frame size",
    "payload size",
    "clock",
    "framing",
    "preferred",
    "minimum",
    "maximum version",
    "usage",
    "luma depth",
    "settings",
    "reference frames",
    "rate modes",
];

/// What a program prints of a trace that is read with an opening that is not refused.
fn read(form: &Form, show: Show, opening: &Opening, trace: &[u8]) -> Printed {
    match traces::text(form, show, opening, trace) {
        (text, true) => refused(text),
        (text, false) => answered(text),
    }
}

/// What the ledger program prints of a trace.
pub fn trace(bytes: &[u8]) -> Printed {
    read(&SHORT, Show::Ledger, &LEDGER, bytes)
}

/// What `convert` writes of a trace.
pub fn converted(bytes: &[u8]) -> Printed {
    let (text, bad) = traces::converted(bytes);
    stopped(text, bad.map(|n| format!("bad record {n}\n")))
}
