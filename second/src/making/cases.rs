//! Cases: how they stand in the input of the answers program.
//!
//! A case is a byte that names its kind, and what follows. Numbers are little-endian; a part is a length of four bytes and that many bytes.
//!   C control    part block
//!   M map        part block, byte ID
//!   N whole map  as M; after it the map's length, whether the places behind it are zero, and the revision
//!   S streaming  part control block, part streaming block: the table of a refused control block is used all the same
//!   H hostile    byte count, byte revision, 32 entities (byte ID, byte kind, two bytes type, two bytes offset), part streaming block
//!   P check      part control block, part streaming block, part probe block
//!   W write      byte revision, part probe block, part room
//!   A revision is 0 for 1.0, 1 for 1.1 and 2 for 1.5.
//!   D configuration  part configuration: its reading, with the settings of each streaming interface
//!   K pick       part configuration, byte interface number, four bytes payload size
//!   T calls      four bytes frame size, four bytes payload size, byte framing, byte header kind, part buffer, four bytes number of calls, and
//!                each call: byte 0 and part transfer, byte 1 (lost), byte 2 (close)
//!   E whole      as T; after it the session's record
//!   B room       as E, with four bytes length of a room of zeros in place of the buffer, and the room's hash after the last four calls alone
//!   F forged     session record, part buffer, part transfer
//!   G from       session record, part buffer, four bytes number of calls, and the calls as in T; told as in E
//!   R record     part ledger's record, session record without its numbers, part buffer, and a call as in T
//!   Y sender     four bytes frame size, four bytes payload size, byte framing, byte header kind and four bytes length of a room of zeros, all of the
//!                receiver; four bytes payload size of the sender, four bytes length of a room of zeros that is lent to each `send`, four bytes number of
//!                frames, and each frame: byte next (0 not, any other: `next` before it), a stamp, part bytes
//!   L trace      byte form (0 short, any other long), byte show (0 ledger, 1 replay, 2 frames, 3 convert), four bytes frame size, four bytes payload
//!                size, four bytes size of each read, part trace; of `convert` the trace alone is looked at
//!   U settings   byte 0 build: part control block, bytes interface, unit, setting and request (places of their names), part room
//!                byte 1 read: part control block, byte interface, part bytes
//!                byte 2 nearest: byte setting, two bytes each minimum, maximum, step and wanted
//!   A header kind is 0 for the old one and 1 for VP8.
//! The record: eight bytes frame size, eight bytes payload size, byte framing, byte header kind, byte closed, four bytes taken, the phase, byte gap,
//! 31 numbers of eight bytes, the last stamp. A stamp: byte present and four bytes. A layer: byte present and two bytes. The phase: byte 0 fresh;
//! 1 under way and byte FID, byte fault (0 none, 1 gap to 6 empty, 9 mixed), eight bytes data so far, eight bytes fill, the stamp, byte still, the layer;
//! 2 past a frame and byte FID.

use crate::reading::control::Revision;
use crate::reading::frames::{Call, Opening};
use crate::reading::records::{Phase, Record};
use crate::reading::sender::Pair;
use crate::reading::streaming::Place;
use crate::reading::traces::Show;

#[derive(Clone, Debug)]
pub enum Case {
    Control(Vec<u8>),
    Map(Vec<u8>, u8),
    WholeMap(Vec<u8>, u8),
    Streaming(Vec<u8>, Vec<u8>),
    Hostile(u8, Revision, Vec<Place>, Vec<u8>),
    Check(Vec<u8>, Vec<u8>, Vec<u8>),
    Write(Revision, Vec<u8>, Vec<u8>),
    Configuration(Vec<u8>),
    Pick(Vec<u8>, u8, u32),
    Calls {
        opening: Opening,
        buffer: Vec<u8>,
        calls: Vec<Call>,
    },
    Whole {
        opening: Opening,
        buffer: Vec<u8>,
        calls: Vec<Call>,
    },
    Room {
        opening: Opening,
        room: usize,
        calls: Vec<Call>,
    },
    Forged(Record, Vec<u8>, Vec<u8>),
    From(Record, Vec<u8>, Vec<Call>),
    /// A ledger's record, the rest of a session (its numbers are not looked at), a buffer and a call.
    Lent(Vec<u8>, Record, Vec<u8>, Call),
    Sent(Pair),
    Trace(Traced),
    Build {
        control: Vec<u8>,
        interface: u8,
        unit: u8,
        setting: usize,
        request: usize,
        room: Vec<u8>,
    },
    ReadBack(Vec<u8>, u8, Vec<u8>),
    Nearest(usize, [u16; 4]),
}

/// A trace, how it is read and what is shown of it: `None` where it is converted.
#[derive(Clone, Debug)]
pub struct Traced {
    pub long: bool,
    pub show: Option<Show>,
    pub frame: u32,
    pub payload: u32,
    pub read: u32,
    pub trace: Vec<u8>,
}

fn part(out: &mut Vec<u8>, bytes: &[u8]) {
    out.extend((bytes.len() as u32).to_le_bytes());
    out.extend(bytes);
}

fn stamp(out: &mut Vec<u8>, s: Option<u32>) {
    out.push(u8::from(s.is_some()));
    out.extend(s.unwrap_or(0).to_le_bytes());
}

fn front(out: &mut Vec<u8>, r: &Record) {
    out.extend(r.frame.to_le_bytes());
    out.extend(r.payload.to_le_bytes());
    out.extend([r.framing, r.kind as u8, u8::from(r.closed)]);
    out.extend(r.taken.to_le_bytes());
    match r.phase {
        Phase::Fresh => out.push(0),
        Phase::Under { fid, fault, bytes, fill, stamp: s, still, layer } => {
            out.extend([1, u8::from(fid), fault]);
            out.extend(bytes.to_le_bytes());
            out.extend(fill.to_le_bytes());
            stamp(out, s);
            out.extend([u8::from(still), u8::from(layer.is_some())]);
            out.extend(layer.unwrap_or(0).to_le_bytes());
        }
        Phase::Past(fid) => out.extend([2, u8::from(fid)]),
    }
    out.push(u8::from(r.gap));
}

fn record(out: &mut Vec<u8>, r: &Record) {
    front(out, r);
    for n in r.numbers {
        out.extend(n.to_le_bytes());
    }
    stamp(out, r.last);
}

fn opening(out: &mut Vec<u8>, o: &Opening) {
    out.extend((o.frame as u32).to_le_bytes());
    out.extend((o.payload as u32).to_le_bytes());
    out.extend([o.framing, o.kind as u8]);
}

fn one(out: &mut Vec<u8>, call: &Call) {
    match call {
        Call::Transfer(t) => {
            out.push(0);
            part(out, t);
        }
        Call::Lost => out.push(1),
        Call::Close => out.push(2),
        Call::Mark => unreachable!("no caller asks for a mark"),
    }
}

fn list(out: &mut Vec<u8>, calls: &[Call]) {
    out.extend((calls.len() as u32).to_le_bytes());
    for call in calls {
        one(out, call);
    }
}

impl Case {
    pub fn kind(&self) -> char {
        match self {
            Case::Control(_) => 'C',
            Case::Map(..) => 'M',
            Case::WholeMap(..) => 'N',
            Case::Streaming(..) => 'S',
            Case::Hostile(..) => 'H',
            Case::Check(..) => 'P',
            Case::Write(..) => 'W',
            Case::Configuration(_) => 'D',
            Case::Pick(..) => 'K',
            Case::Calls { .. } => 'T',
            Case::Whole { .. } => 'E',
            Case::Room { .. } => 'B',
            Case::Forged(..) => 'F',
            Case::From(..) => 'G',
            Case::Lent(..) => 'R',
            Case::Sent(_) => 'Y',
            Case::Trace(_) => 'L',
            Case::Build { .. } | Case::ReadBack(..) | Case::Nearest(..) => 'U',
        }
    }

    /// How many calls the case makes on a session.
    pub fn calls(&self) -> usize {
        match self {
            Case::Calls { calls, .. } | Case::Whole { calls, .. } | Case::Room { calls, .. } | Case::From(_, _, calls) => calls.len(),
            Case::Forged(..) => 3,
            Case::Lent(..) => 1,
            Case::Sent(pair) => pair.calls(),
            _ => 0,
        }
    }

    pub fn bytes(&self) -> Vec<u8> {
        let mut out = vec![self.kind() as u8];
        match self {
            Case::Control(block) => part(&mut out, block),
            Case::Map(block, id) | Case::WholeMap(block, id) => {
                part(&mut out, block);
                out.push(*id);
            }
            Case::Streaming(control, block) => {
                part(&mut out, control);
                part(&mut out, block);
            }
            Case::Hostile(count, revision, places, block) => {
                out.extend([*count, *revision as u8]);
                for p in places {
                    out.extend([p.id, p.kind]);
                    out.extend(p.terminal.to_le_bytes());
                    out.extend(p.offset.to_le_bytes());
                }
                part(&mut out, block);
            }
            Case::Check(control, block, probe) => {
                part(&mut out, control);
                part(&mut out, block);
                part(&mut out, probe);
            }
            Case::Write(revision, probe, room) => {
                out.push(*revision as u8);
                part(&mut out, probe);
                part(&mut out, room);
            }
            Case::Configuration(s) => part(&mut out, s),
            Case::Pick(s, interface, payload) => {
                part(&mut out, s);
                out.push(*interface);
                out.extend(payload.to_le_bytes());
            }
            Case::Calls { opening, buffer, calls } | Case::Whole { opening, buffer, calls } => {
                self::opening(&mut out, opening);
                part(&mut out, buffer);
                list(&mut out, calls);
            }
            Case::Room { opening, room, calls } => {
                self::opening(&mut out, opening);
                out.extend((*room as u32).to_le_bytes());
                list(&mut out, calls);
            }
            Case::From(r, buffer, calls) => {
                record(&mut out, r);
                part(&mut out, buffer);
                list(&mut out, calls);
            }
            Case::Lent(bytes, r, buffer, call) => {
                part(&mut out, bytes);
                front(&mut out, r);
                stamp(&mut out, r.last);
                part(&mut out, buffer);
                one(&mut out, call);
            }
            Case::Sent(p) => {
                self::opening(&mut out, &p.opening);
                for n in [p.buffer as u32, p.payload, p.room as u32, p.frames.len() as u32] {
                    out.extend(n.to_le_bytes());
                }
                for (next, f) in &p.frames {
                    out.push(u8::from(*next));
                    stamp(&mut out, f.stamp);
                    part(&mut out, &f.bytes);
                }
            }
            Case::Trace(t) => {
                let show = SHOWS.iter().position(|s| *s == t.show).unwrap();
                out.extend([u8::from(t.long), show as u8]);
                for n in [t.frame, t.payload, t.read] {
                    out.extend(n.to_le_bytes());
                }
                part(&mut out, &t.trace);
            }
            Case::Forged(r, buffer, transfer) => {
                record(&mut out, r);
                part(&mut out, buffer);
                part(&mut out, transfer);
            }
            Case::Build { control, interface, unit, setting, request, room } => {
                out.push(0);
                part(&mut out, control);
                out.extend([*interface, *unit, *setting as u8, *request as u8]);
                part(&mut out, room);
            }
            Case::ReadBack(control, interface, bytes) => {
                out.push(1);
                part(&mut out, control);
                out.push(*interface);
                part(&mut out, bytes);
            }
            Case::Nearest(setting, words) => {
                out.extend([2, *setting as u8]);
                out.extend(words.iter().flat_map(|w| w.to_le_bytes()));
            }
        }
        out
    }
}

/// What is shown of a trace, in the order of their bytes.
pub const SHOWS: [Option<Show>; 4] = [Some(Show::Ledger), Some(Show::Replay), Some(Show::Frames), None];
