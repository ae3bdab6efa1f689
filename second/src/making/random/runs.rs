//! Random runs of the launcher, each with what is to be printed of it.

use crate::making::blocks::{filler, total, CONTROL_TOTAL, STREAMING_TOTAL};
use crate::making::chance::Random;
use crate::making::random::configurations;
use crate::making::random::control::{control, linked_control, maybe_damaged_control};
use crate::making::random::probe::probe;
use crate::making::random::settings::{asked, packet, range};
use crate::making::random::streaming::{maybe_damaged_streaming, streaming};
use crate::making::random::traces;
use crate::reading::frames::Opening;
use crate::reading::printed::{self, Printed, Words};
use crate::reading::setup::{self, REQUESTS, SETTINGS};
use crate::reading::streaming::table;
use crate::reading::traces::{Form, Show, LEDGER, LONG, REPLAY, SHORT};

/// The most bytes of a control block, of a streaming block and of a configuration; and where a configuration has its total length.
const CONTROL_MOST: usize = 4096;
const STREAMING_MOST: usize = 16_384;
const CONFIGURATION_MOST: usize = 32_768;
const CONFIGURATION_TOTAL: usize = 2;

/// A run of the launcher: its words, the files that they name, and what comes by standard input, in pieces.
pub struct Run {
    pub words: Vec<String>,
    pub files: Vec<(&'static str, Vec<u8>)>,
    pub pieces: Vec<Vec<u8>>,
    pub wanted: Printed,
}

/// A short trace, mostly of some records.
fn trace(r: &mut Random, form: &Form, opening: &Opening) -> Vec<u8> {
    let most = match r.below(20) {
        0 => 0,
        1 => 3000,
        _ => 60,
    };
    traces::trace(r, form, opening, most)
}

/// Now and then a block as long as it may be, by descriptors that are stepped over, and mostly a byte longer.
fn long(r: &mut Random, mut block: Vec<u8>, most: usize, total_at: usize) -> Vec<u8> {
    if block.len() + 3 <= most && r.once_in(10) {
        block.extend(filler(most - block.len()).concat());
        total(&mut block, total_at);
        if !r.once_in(3) {
            block.push(r.byte());
        }
    }
    block
}

/// Now and then as Linux keeps it: a device descriptor in front, mostly a good one, and maybe something behind, or a part missing.
fn maybe_of_a_device(r: &mut Random, s: Vec<u8>) -> Vec<u8> {
    if !r.once_in(3) {
        return s;
    }
    let mut file: Vec<u8> = (0..18).map(|_| r.byte()).collect();
    file[0] = if r.once_in(10) { 17 } else { 18 };
    file[1] = if r.once_in(10) { 2 } else { 1 };
    file.extend(&s);
    match r.below(4) {
        0 => file.extend(&s),
        1 => file.push(r.byte()),
        2 if r.once_in(4) => file.truncate(r.below(30)),
        _ => {}
    }
    file
}

fn word(r: &mut Random) -> String {
    match r.below(8) {
        0 => r.pick(&["", "256", "999", "-1", "+1", "1a", " 1", "0x1", "00000256"]).to_string(),
        1 => format!("{:03}", r.below(256)),
        2 => r.below(256).to_string(),
        _ => (1 + r.below(8)).to_string(),
    }
}

/// A payload size as a word, on both sides of what is one.
fn large(r: &mut Random) -> String {
    r.pick(&["", "4294967295", "4294967296", "99999999999", "-1", "1e3", "0", "0000000000000001", "00000000000000001", "3072x"]).to_string()
}

/// Now and then another word than the one that is meant.
fn or(r: &mut Random, word: String, others: &[&str]) -> String {
    if r.once_in(30) {
        r.pick(others).to_string()
    } else {
        word
    }
}

/// A run of `setup`.
fn setting(r: &mut Random, said: &Words) -> Run {
    let names = ["", "gain", "Hue", "brightness ", "get_cur", "contrastcontrast", "set_curr"];
    let run = |words: &[&str], files, wanted| Run { words: named(&[&["setup"], words].concat()), files, pieces: vec![], wanted };
    match r.below(3) {
        0 => {
            let (block, interface, unit, setting, request) = asked(r);
            let block = long(r, block, CONTROL_MOST, CONTROL_TOTAL);
            let interface = or(r, interface.to_string(), &["", "256", "-1", "0x1"]);
            let unit = or(r, unit.to_string(), &["", "256", "999", "1a"]);
            let setting = or(r, SETTINGS[setting].to_string(), &names);
            let request = or(r, REQUESTS[request].to_string(), &names);
            let wanted = said.build(&block, [&interface, &unit, &setting, &request]);
            run(&["build", "control", &interface, &unit, &setting, &request], vec![("control", block)], wanted)
        }
        1 => {
            let mut it = asked(r);
            let bytes = packet(r, &it);
            it.0 = long(r, it.0, CONTROL_MOST, CONTROL_TOTAL);
            let interface = or(r, it.1.to_string(), &["", "256", "9", "+0"]);
            let wanted = said.read_back(&it.0, &interface, &bytes);
            run(&["read", "control", &interface, "packet"], vec![("control", it.0), ("packet", bytes)], wanted)
        }
        _ => {
            let setting = SETTINGS[r.below(4)];
            let words = range(r).map(|w| setup::number(setting, w).to_string());
            let edges = ["70000", "-32769", "32768", "65536", "-1", "", "-", "1-", "007", "--1", "-0", "+5"];
            let words = words.map(|w| or(r, w, &edges));
            let setting = or(r, setting.to_string(), &names);
            let words = [&words[0][..], &words[1], &words[2], &words[3]];
            let wanted = said.nearest(&setting, words);
            run(&[&["nearest", &setting[..]], &words[..]].concat(), vec![], wanted)
        }
    }
}

fn named(words: &[&str]) -> Vec<String> {
    words.iter().map(|w| w.to_string()).collect()
}

/// A program that reads a trace, from a file or from standard input in pieces.
fn given(r: &mut Random, mut words: Vec<String>, form: &Form, bytes: Vec<u8>, wanted: Printed) -> Run {
    if r.once_in(2) {
        words.push("trace".to_string());
        return Run { words, files: vec![("trace", bytes)], pieces: vec![], wanted };
    }
    let size = 1 + r.below(3 * form.size);
    Run { words, files: vec![], pieces: bytes.chunks(size).map(<[u8]>::to_vec).collect(), wanted }
}

/// A size as a word, now and then none, or a size that opening refuses.
fn size(r: &mut Random, good: usize, broken: &[&str]) -> String {
    let word = good.to_string();
    let word = or(r, word, broken);
    or(r, word, &["", "4294967296", "-1", "1e3", "0x10", "99999999999", "12a", "+9"])
}

/// `replay`, `frames` or `convert`.
fn traced(r: &mut Random, said: &Words) -> Run {
    if r.once_in(4) {
        let bytes = trace(r, &SHORT, &LEDGER);
        let wanted = printed::converted(&bytes);
        return given(r, named(&["convert"]), &SHORT, bytes, wanted);
    }
    let show = r.pick(&[Show::Replay, Show::Frames]);
    let mut words = named(&[if show == Show::Replay { "replay" } else { "frames" }]);
    let mut opening = REPLAY;
    let mut sizes = None;
    if r.once_in(2) {
        let small = 1 + r.below(100);
        let frame = r.pick(&[256, small, 5_000, 16_777_216]);
        opening = Opening { frame, payload: r.pick(&[62, 100, 3_072, 65_536]), ..REPLAY };
        let frame = size(r, opening.frame, &["0", "16777217", "4294967295", "000"]);
        let payload = size(r, opening.payload, &["0", "1", "65537", "4294967295"]);
        words.extend(["--sizes".to_string(), frame.clone(), payload.clone()]);
        sizes = Some([frame, payload]);
    }
    let short = r.once_in(3);
    let form = if short { &SHORT } else { &LONG };
    if short {
        words.push("--short".to_string());
    }
    let bytes = trace(r, form, &opening);
    let wanted = said.replay(show, form, sizes.as_ref().map(|s| [&s[0][..], &s[1]]), &bytes);
    given(r, words, form, bytes, wanted)
}

/// `send` of some files.
fn sent(r: &mut Random, said: &Words) -> Run {
    let small = 3 + r.below(60);
    let payload = r.pick(&[3, 7, 8, 62, 1_000, 3_072, small]);
    let payload = or(r, payload.to_string(), &["0", "1", "2", "6", "3073", "65537", "", "-3", "x"]);
    let ticks = if r.once_in(2) { Some(r.pick(&["0", "1", "3000", "2147483648", "4294967295", "007"]).to_string()) } else { None };
    let ticks = ticks.map(|t| or(r, t, &["", "4294967296", "-1", "1.5"]));
    let full = payload.parse().unwrap_or(0usize).saturating_sub(if ticks.is_some() { 6 } else { 2 }).clamp(1, 3_070);
    let files: Vec<Vec<u8>> = (0..1 + r.below(4))
        .map(|_| match r.below(20) {
            0 => vec![],
            1 if r.once_in(5) => vec![5; 16_777_217],
            _ => {
                let n = full * r.below(5) + r.below(3);
                r.bytes(n.max(1))
            }
        })
        .collect();
    let names = &["one", "two", "three", "four"][..files.len()];
    let mut words = named(&["send", &payload]);
    if let Some(t) = &ticks {
        words.extend(["--stamp".to_string(), t.clone()]);
    }
    words.extend(named(names));
    let wanted = said.send(&payload, ticks.as_deref(), &files);
    Run { words, files: names.iter().copied().zip(files).collect(), pieces: vec![], wanted }
}

/// What may be run of what a run wrote: a replay of a trace that was sent, and one at the ledger program's sizes of a trace that was converted, which ends
/// with what the ledger program prints of the short one.
pub fn after(it: &Run, said: &Words) -> Option<Run> {
    let trace = it.wanted.text.clone();
    let sizes = match it.words[0].as_str() {
        "send" => None,
        "convert" => Some(["256", "62"]),
        _ => return None,
    };
    if it.wanted.status == 2 {
        return None;
    }
    let mut words = named(&["replay"]);
    if let Some([frame, payload]) = sizes {
        words.extend(named(&["--sizes", frame, payload]));
    }
    words.push("written".to_string());
    let wanted = said.replay(Show::Replay, &LONG, sizes, &trace);
    if it.words[0] == "convert" {
        let short = it.files.first().map_or_else(|| it.pieces.concat(), |(_, bytes)| bytes.clone());
        assert!(wanted.text.ends_with(&printed::trace(&short).text), "a converted trace has another ledger: {wanted:?}");
    }
    Some(Run { words, files: vec![("written", trace)], pieces: vec![], wanted })
}

pub fn run(r: &mut Random, said: &Words) -> Run {
    let describe = |words: &[&str], files, wanted| Run { words: named(&[&["describe"], words].concat()), files, pieces: vec![], wanted };
    match r.below(28) {
        10 | 11 => {
            let s = configurations::maybe_damaged(r);
            let s = long(r, s, CONFIGURATION_MOST, CONFIGURATION_TOTAL);
            let s = maybe_of_a_device(r, s);
            let wanted = said.configuration(&s);
            describe(&["configuration", "camera"], vec![("camera", s)], wanted)
        }
        26 | 27 => {
            let s = configurations::maybe_damaged(r);
            let s = long(r, s, CONFIGURATION_MOST, CONFIGURATION_TOTAL);
            let s = maybe_of_a_device(r, s);
            let wanted = said.camera(&s);
            describe(&["camera", "camera"], vec![("camera", s)], wanted)
        }
        12 => {
            let s = configurations::maybe_damaged(r);
            let s = long(r, s, CONFIGURATION_MOST, CONFIGURATION_TOTAL);
            let number = if r.once_in(6) { word(r) } else { configurations::number(r, &s).to_string() };
            let payload = if r.once_in(6) { large(r) } else { configurations::payload(r, &s).to_string() };
            let s = maybe_of_a_device(r, s);
            let wanted = said.setting(&s, &number, &payload);
            describe(&["setting", "camera", &number, &payload], vec![("camera", s)], wanted)
        }
        13..=16 => setting(r, said),
        0..=3 => {
            let bytes = trace(r, &SHORT, &LEDGER);
            let wanted = printed::trace(&bytes);
            given(r, named(&["ledger"]), &SHORT, bytes, wanted)
        }
        17..=23 => traced(r, said),
        24 | 25 => sent(r, said),
        4 | 5 => {
            let block = maybe_damaged_control(r);
            let block = long(r, block, CONTROL_MOST, CONTROL_TOTAL);
            let wanted = said.control(&block);
            describe(&["control", "control"], vec![("control", block)], wanted)
        }
        6 => {
            let block = if r.once_in(2) { linked_control(r) } else { control(r) };
            let block = long(r, block, CONTROL_MOST, CONTROL_TOTAL);
            let id = word(r);
            let wanted = said.map(&block, &id);
            describe(&["map", "control", &id], vec![("control", block)], wanted)
        }
        7 | 8 => {
            let control = linked_control(r);
            let control = long(r, control, CONTROL_MOST, CONTROL_TOTAL);
            let (block, _) = maybe_damaged_streaming(r);
            let block = long(r, block, STREAMING_MOST, STREAMING_TOTAL);
            let wanted = said.streaming(&control, &block);
            describe(&["streaming", "control", "streaming"], vec![("control", control), ("streaming", block)], wanted)
        }
        _ => {
            let control = linked_control(r);
            let control = long(r, control, CONTROL_MOST, CONTROL_TOTAL);
            let (block, offered) = if r.once_in(6) { maybe_damaged_streaming(r) } else { streaming(r) };
            let block = long(r, block, STREAMING_MOST, STREAMING_TOTAL);
            let mut probe = probe(r, table(&control).revision, &offered);
            if r.once_in(10) {
                probe.push(r.byte());
            }
            let wanted = said.probe(&control, &block, &probe);
            describe(
                &["probe", "control", "streaming", "probe"],
                vec![("control", control), ("streaming", block), ("probe", probe)],
                wanted,
            )
        }
    }
}
