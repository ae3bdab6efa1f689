//! Opening, and a list of calls on a session: what each answers, from the list alone, and what the session's record is after it.

use crate::reading::frames::{answer, hand_out, judge, ledger, reason_name, written};
use crate::reading::frames::{Becomes, Call, Opening, Reason, Verdict};
use crate::reading::records::{self, Phase, Record, FAULTS};
use crate::reading::sizes::sizes;
use crate::reading::told::{hex, Told};
use std::fmt::Write;

fn why(reason: Option<Reason>) -> &'static str {
    reason.map_or("none", reason_name)
}

/// All that is printed of a list of calls.
pub fn calls(given: &Opening, initial: &[u8], list: &[Call], told: Told) -> String {
    let mut out = String::new();
    let mut buffer = initial.to_vec();
    let opening = match sizes(given.frame as u64, given.payload as u64) {
        Err(r) => Some(r.number),
        Ok(()) if buffer.len() < given.frame => Some(47),
        Ok(()) => None,
    };
    match opening {
        Some(k) => writeln!(out, "open refused {k}").unwrap(),
        None => writeln!(out, "open").unwrap(),
    }
    let mut taken: Vec<Call> = Vec::new();
    let mut old = judge(&taken, given);
    for (i, call) in list.iter().enumerate() {
        // What a refused opening leaves behind has no sizes; 51 and 52 cannot be met here.
        let refused = if opening.is_some() {
            Some(50)
        } else if taken.contains(&Call::Close) {
            Some(53)
        } else {
            match call {
                Call::Transfer(t) if t.len() > 65_536 => Some(55),
                _ => None,
            }
        };
        let handed = match call {
            Call::Transfer(t) => hand_out(&taken, &old, t, given),
            _ => None,
        };
        if let Some(k) = refused {
            write!(out, "refused {k}").unwrap();
        } else if let Some(frame) = handed {
            // The mark stands in the list, and the transfer does not.
            taken.push(Call::Mark);
            old = judge(&taken, given);
            write!(out, "handed {frame}").unwrap();
        } else {
            taken.push(call.clone());
            let new = judge(&taken, given);
            let (ended, fate) = answer(&taken, &old, &new, given);
            if let Some((at, data)) = written(&taken, &new) {
                buffer[at..at + data.len()].copy_from_slice(data);
            }
            match call {
                Call::Transfer(_) => write!(out, "taken ended {} fate {fate}", why(ended)),
                Call::Lost => write!(out, "lost noted"),
                Call::Close => write!(out, "closed {}", why(ended)),
                Call::Mark => unreachable!("no caller asks for a mark"),
            }
            .unwrap();
            old = new;
        }
        out += &told.after(list.len() - i, &buffer);
    }
    write!(out, "ledger").unwrap();
    for n in ledger(&old) {
        write!(out, " {n}").unwrap();
    }
    writeln!(out).unwrap();
    if buffer.len() <= 64 {
        writeln!(out, "buffer {}", hex(&buffer)).unwrap();
    }
    if told == Told::Plain {
        return out;
    }
    out += &reached(given, opening.is_some(), &taken, &old).line();
    // Call by call it comes to the same.
    let start = Record::opened(if opening.is_some() { None } else { Some(given) });
    let first = out.find('\n').unwrap() + 1;
    assert_eq!(out[first..], records::follow(&start, initial, list, told), "the list and the record disagree: {given:?} {list:?}");
    out
}

/// The record that a list of calls leads to.
fn reached(given: &Opening, refused: bool, taken: &[Call], v: &Verdict) -> Record {
    if refused {
        return Record::opened(None);
    }
    let phase = match v.frames.last() {
        None => Phase::Fresh,
        Some(f) if f.becomes == Becomes::UnderWay => Phase::Under {
            fid: f.fid,
            fault: f.fault.map_or(0, fault_number),
            bytes: f.bytes as u64,
            fill: f.fill as u64,
            stamp: f.delivery.stamp,
            still: f.still,
            layer: f.delivery.layer,
        },
        Some(f) => Phase::Past(f.fid),
    };
    Record {
        closed: taken.contains(&Call::Close),
        taken: taken.iter().filter(|c| matches!(c, Call::Transfer(_) | Call::Lost)).count() as u32,
        phase,
        gap: v.gap,
        // The last stamp of a delivered frame that has one.
        last: v.frames.iter().rev().find_map(|f| match f.becomes {
            Becomes::Delivered(d) => d.stamp,
            _ => None,
        }),
        ..Record::opened(Some(given))
    }
}

fn fault_number(r: Reason) -> u8 {
    FAULTS.into_iter().find(|&k| records::fault_name(k) == reason_name(r)).unwrap()
}
