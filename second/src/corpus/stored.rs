//! The stored cases: chosen ones for every number, fate, fault and edge, then random ones from a fixed seed.

use crate::corpus::blocks;
use crate::corpus::calls;
use crate::corpus::configurations;
use crate::corpus::documents;
use crate::corpus::records;
use crate::corpus::senders;
use crate::corpus::settings;
use crate::corpus::streams;
use crate::corpus::traces;
use crate::corpus::vp8;
use crate::making::answers::expected;
use crate::making::cases::Case;
use crate::making::chance::Random;
use crate::making::random::any;
use crate::reading::setup::{REQUESTS, SETTINGS};
use std::collections::BTreeSet;

/// So many random cases are stored behind the chosen ones.
const RANDOM: usize = 40;

/// The seed of the random ones.
const SEED: u64 = 15;

/// The lists of calls among them are this long.
const CALLS: usize = 24;

pub fn write(stdin: &str, stdout: &str) -> Result<(), String> {
    let mut cases = chosen();
    let all = cases.len() + RANDOM;
    let mut r = Random(SEED);
    while cases.len() < all {
        let case = any::case(&mut r, CALLS);
        if case.bytes().len() < 4_000 {
            cases.push(case);
        }
    }
    let wanted = expected(&cases);
    covered(&wanted)?;
    let printed: usize = wanted.iter().map(String::len).sum();
    if printed > 1 << 20 {
        return Err(format!("{printed} bytes are printed of the stored cases, more than the kit's trial of a program holds"));
    }
    let input: Vec<u8> = cases.iter().flat_map(Case::bytes).collect();
    std::fs::write(stdin, input).map_err(|e| format!("{stdin}: {e}"))?;
    std::fs::write(stdout, wanted.concat()).map_err(|e| format!("{stdout}: {e}"))
}

/// Fails unless every number and every fate of documents 01 and 02 occurs in the answers.
fn covered(answers: &[String]) -> Result<(), String> {
    let mut seen: BTreeSet<String> = BTreeSet::new();
    for line in answers.iter().flat_map(|a| a.lines()) {
        let words: Vec<&str> = line.split(' ').collect();
        for pair in words.windows(2) {
            if ["refused", "unreadable", "ended", "closed", "fate", "dropped", "handed", "control", "request"].contains(&pair[0]) {
                seen.insert(pair.join(" "));
            }
            if pair[1] == "accepted" {
                seen.insert(pair.join(" "));
            }
        }
        if words[0] == "revision" {
            seen.insert(line.to_string());
        }
        // Of a record: closed, the gap flag, and the frame's fault, FID and still bit.
        if words[0] == "record" {
            seen.insert(format!("{} closed {} gap {} {}", words[4], words[5], words[8], words[9]));
            if words[9] == "under" {
                seen.insert(format!("under {} {}", words[11], words[12]));
            }
            continue;
        }
        // Length, stamp and layer follow.
        if let Some(i) = words.iter().position(|w| ["fate", "handed"].contains(w)) {
            if ["delivered", "still"].contains(&words[i + 1]) {
                let layer = if words[i + 4] == "-" { "no layer" } else { "a layer" };
                seen.insert(format!("{} {} with {layer}", words[i], words[i + 1]));
            }
        }
        // A frame that ended, by its number, fate, length and stamp.
        if words.len() == 4 && words[0].parse::<usize>().is_ok() {
            seen.insert(format!("frame {} {}", words[1], if words[3] == "-" { "untimed" } else { "stamped" }));
        }
    }
    let numbers = (1..=16).chain(20..=47).chain(50..=55).chain(70..=75).chain(80..=82).chain(90..=95);
    let mut wanted: Vec<String> = numbers.map(|n| format!("refused {n}")).collect();
    wanted.extend((61..=67).map(|n| format!("unreadable {n}")));
    wanted.extend(["idle", "kept", "stray", "delivered", "still", "dropped", "unreadable"].map(|f| format!("fate {f}")));
    wanted.extend(["gap", "error", "clock", "mixed", "long", "empty"].map(|f| format!("dropped {f}")));
    wanted.extend(["none", "gap", "error", "clock", "mixed", "long", "cut", "empty"].map(|f| format!("ended {f}")));
    wanted.extend(["delivered", "still"].map(|f| format!("handed {f}")));
    wanted.extend(["fate delivered", "handed delivered", "handed still"].map(|f| format!("{f} with a layer")));
    wanted.extend(["fate delivered", "fate still", "handed delivered", "handed still"].map(|f| format!("{f} with no layer")));
    wanted.extend(["none", "gap", "error", "clock", "mixed", "long", "cut"].map(|f| format!("closed {f}")));
    wanted
        .extend(["control", "streaming", "check", "probe", "write", "configuration", "build", "nearest"].map(|f| format!("{f} accepted")));
    wanted.extend(["1.0", "1.1", "1.5"].map(|v| format!("revision {v}")));
    for phase in ["fresh", "past", "under"] {
        for gap in [0, 1] {
            wanted.extend(["old closed 0", "old closed 1", "vp8 closed 0"].map(|w| format!("{w} gap {gap} {phase}")));
        }
    }
    for fault in ["sound", "gap", "error", "clock", "mixed", "long", "cut", "empty"] {
        wanted.extend([0, 1].map(|still| format!("under {still} {fault}")));
    }
    for fate in ["delivered", "still", "gap", "error", "clock", "mixed", "long", "cut", "empty"] {
        wanted.extend(["untimed", "stamped"].map(|time| format!("frame {fate} {time}")));
    }
    // No frame breaks the clock without a stamp.
    wanted.retain(|w| w != "frame clock untimed");
    wanted.extend(SETTINGS.map(|s| format!("control {s}")));
    wanted.extend(REQUESTS.map(|q| format!("request {q}")));
    let missing: Vec<String> = wanted.into_iter().filter(|w| !seen.contains(w)).collect();
    if missing.is_empty() {
        Ok(())
    } else {
        Err(format!("the stored cases never give: {}", missing.join(", ")))
    }
}

fn chosen() -> Vec<Case> {
    let mut all = blocks::all();
    all.extend(streams::all());
    all.extend(configurations::all());
    all.extend(documents::all());
    all.extend(calls::all());
    all.extend(vp8::all());
    all.extend(records::all());
    all.extend(settings::all());
    all.extend(senders::all());
    all.extend(traces::all());
    all
}
