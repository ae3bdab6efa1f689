//! What is to be printed of each case.

use crate::making::cases::{Case, Traced};
use crate::reading::configuration;
use crate::reading::control::{self, Revision};
use crate::reading::frames::Opening;
use crate::reading::probe;
use crate::reading::records;
use crate::reading::refusal::Refusal;
use crate::reading::session;
use crate::reading::setup::{self, REQUESTS, SETTINGS};
use crate::reading::sizes::sizes;
use crate::reading::streaming::{self, table, Table};
use crate::reading::told::{hash, hex, Told};
use crate::reading::traces::{self, LONG, REPLAY, SHORT};
use std::fmt::Write;

/// What the second reader prints of a list of cases.
pub fn expected(cases: &[Case]) -> Vec<String> {
    cases.iter().enumerate().map(|(i, c)| format!("case {}\n{}", i + 1, answer(c))).collect()
}

/// What is to be printed, without the line that numbers the case.
pub fn answer(case: &Case) -> String {
    match case {
        Case::Control(block) => control_answer(block),
        Case::Map(block, id) => map_answer(block, *id),
        Case::WholeMap(block, id) => {
            let bytes = control::map(block, *id).unwrap_or_default();
            let revision = table(block).revision.name();
            format!("{}length {}\nrest zero\nrevision {revision}\n", map_answer(block, *id), bytes.len())
        }
        Case::Streaming(control, block) => streaming_answer(&table(control), block),
        Case::Hostile(count, revision, places, block) => {
            streaming_answer(&Table { revision: *revision, count: *count as usize, places: places.clone() }, block)
        }
        Case::Check(control, block, probe) => verdict("check", &probe::check(&table(control), block, probe)),
        Case::Write(revision, probe, room) => write_answer(*revision, probe, room),
        Case::Configuration(s) => configuration_answer(s),
        Case::Pick(s, interface, payload) => match configuration::pick(s, *interface, *payload) {
            Ok(x) => format!("pick {} {}\n", x.number, x.bytes),
            Err(r) => format!("pick refused {} at {}\n", r.number, r.offset),
        },
        Case::Calls { opening, buffer, calls } => session::calls(opening, buffer, calls, Told::Plain),
        Case::Whole { opening, buffer, calls } => session::calls(opening, buffer, calls, Told::Whole),
        Case::Room { opening, room, calls } => session::calls(opening, &vec![0; *room], calls, Told::Room),
        Case::Forged(r, buffer, transfer) => records::forged(r, buffer, transfer),
        Case::From(r, buffer, calls) => records::follow(r, buffer, calls, Told::Whole),
        Case::Lent(bytes, r, buffer, call) => records::lent(bytes, r, buffer, call),
        Case::Sent(pair) => pair.answer(),
        Case::Trace(t) => trace_answer(t),
        Case::Build { control, interface, unit, setting, request, room } => {
            let mut room = room.clone();
            let built = setup::build(control, *interface, *unit, SETTINGS[*setting], REQUESTS[*request], &mut room);
            format!("{}room {}\n", verdict("build", &built), hex(&room))
        }
        Case::ReadBack(control, interface, bytes) => match setup::read(control, *interface, bytes) {
            Ok((unit, setting, request)) => format!("read {}", setup::asked(unit, setting, request)),
            Err(r) => format!("read refused {} at {}\n", r.number, r.offset),
        },
        Case::Nearest(setting, words) => nearest_answer(SETTINGS[*setting], words),
    }
}

fn trace_answer(t: &Traced) -> String {
    let Some(show) = t.show else {
        let (bytes, bad) = traces::converted(&t.trace);
        let stop = bad.map_or(String::new(), |n| format!("bad record {n}\n"));
        return format!("converted {} hash {}\n{stop}", bytes.len(), hash(&bytes));
    };
    if let Err(r) = sizes(u64::from(t.frame), u64::from(t.payload)) {
        return format!("open refused {}\n", r.number);
    }
    let opening = Opening { frame: t.frame as usize, payload: t.payload as usize, ..REPLAY };
    traces::text(if t.long { &LONG } else { &SHORT }, show, &opening, &t.trace).0
}

fn map_answer(block: &[u8], id: u8) -> String {
    match control::map(block, id) {
        Ok(bytes) => control::controls(&bytes),
        Err(r) => format!("map refused {} at {}\n", r.number, r.offset),
    }
}

fn verdict<T>(name: &str, v: &Result<T, Refusal>) -> String {
    match v {
        Ok(_) => format!("{name} accepted\n"),
        Err(r) => format!("{name} refused {} at {}\n", r.number, r.offset),
    }
}

fn nearest_answer(setting: &str, words: &[u16; 4]) -> String {
    let [minimum, maximum, step, wanted] = words.map(|w| setup::number(setting, w));
    let read = setup::nearest(minimum, maximum, step, wanted);
    let n = *read.as_ref().unwrap_or(&0);
    format!("{}word {}\nnumber {n}\n", verdict("nearest", &read), n.rem_euclid(65_536))
}

fn control_answer(block: &[u8]) -> String {
    let read = control::read(block);
    let mut out = verdict("control", &read);
    let (clock, entities) = read.map_or((0, vec![]), |c| (c.clock, c.entities));
    write!(out, "count {}\nclock {clock}\n", entities.len()).unwrap();
    for e in &entities {
        writeln!(out, "entity {} {} {} {}", e.id, e.kind, e.terminal, e.offset).unwrap();
    }
    out + "rest zero\n"
}

fn streaming_answer(table: &Table, block: &[u8]) -> String {
    let read = streaming::read(table, block);
    let mut out = verdict("streaming", &read);
    let s = read.unwrap_or(streaming::Streaming { endpoint: 0, link: 0, formats: vec![], frames: vec![] });
    write!(out, "endpoint {}\nlink {}\nformats {}\n", s.endpoint, s.link, s.formats.len()).unwrap();
    for f in &s.formats {
        writeln!(out, "format {} {} {} {} {} {}", f.kind, f.guid, f.bits, f.frames, f.default, f.offset).unwrap();
    }
    writeln!(out, "frames {}", s.frames.len()).unwrap();
    for f in &s.frames {
        writeln!(out, "frame {} {} {} {} {} {} {}", f.format, f.width, f.height, f.size, f.interval, f.k, f.offset).unwrap();
    }
    out + "rest zero\n"
}

fn configuration_answer(s: &[u8]) -> String {
    let read = configuration::read(s);
    let mut out = verdict("configuration", &read);
    if let Ok(c) = read {
        writeln!(out, "interface {} {} {}\nstreams {}", c.interface, c.offset, c.length, c.streams.len()).unwrap();
        for x in &c.streams {
            writeln!(out, "stream {} {} {} {}", x.interface, x.offset, x.length, x.endpoint).unwrap();
            for y in &x.settings {
                writeln!(out, "setting {} {}", y.number, y.bytes).unwrap();
            }
        }
    } else {
        out += "interface 0 0 0\nstreams 0\n";
    }
    out + "rest zero\n"
}

fn write_answer(revision: Revision, probe: &[u8], room: &[u8]) -> String {
    let read = probe::fields(revision, probe);
    let mut out = verdict("probe", &read);
    let fields = read.unwrap_or(vec![0; 29]);
    out += "fields";
    for n in &fields {
        write!(out, " {n}").unwrap();
    }
    out += "\n";
    let mut room = room.to_vec();
    out += &verdict("write", &probe::write(revision, &fields, &mut room));
    writeln!(out, "room {}", hex(&room)).unwrap();
    out
}
