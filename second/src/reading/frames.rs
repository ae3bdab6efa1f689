//! The frame rule from the whole list: at every call the list of calls taken is judged anew from its beginning.

use crate::reading::told::or_dash;

#[derive(Clone, Debug, PartialEq)]
pub enum Call {
    Transfer(Vec<u8>),
    Lost,
    Close,
    /// The mark of a hand-out, which no caller asks for.
    Mark,
}

/// The header that a camera sends: that of document 01, or that of source document 004.
#[derive(Clone, Copy, Debug, PartialEq, Eq)]
pub enum HeaderKind {
    Old,
    Vp8,
}

impl HeaderKind {
    pub const ALL: [HeaderKind; 2] = [HeaderKind::Old, HeaderKind::Vp8];
}

/// What a session is opened with.
#[derive(Clone, Copy, Debug)]
pub struct Opening {
    pub frame: usize,
    pub payload: usize,
    pub framing: u8,
    pub kind: HeaderKind,
}

impl Opening {
    /// D1 of the framing byte: the camera sends EOF.
    pub fn sends_eof(&self) -> bool {
        self.framing & 2 != 0
    }
}

#[derive(Clone, Copy, Debug, PartialEq, Eq)]
pub enum Reason {
    Gap,
    Error,
    Clock,
    Mixed,
    Long,
    Cut,
    Empty,
}

#[derive(Clone, Debug, PartialEq)]
pub enum Sort {
    Idle,
    Unreadable(u8),
    Readable { fid: bool, eof: bool, still: bool, error: bool, stamp: Option<u32>, layer: Option<u16>, header: usize },
}

pub fn sort(t: &[u8], opening: &Opening) -> Sort {
    let vp8 = opening.kind == HeaderKind::Vp8;
    // The header's length and its flags: one byte of flags, or three.
    let least = if vp8 { 4 } else { 2 };
    match t.len() {
        0 => return Sort::Idle,
        n if n < least => return Sort::Unreadable(61),
        n if n > opening.payload => return Sort::Unreadable(62),
        _ => {}
    }
    let header = t[0] as usize;
    if header < least {
        return Sort::Unreadable(63);
    }
    if header > t.len() {
        return Sort::Unreadable(64);
    }
    let flags = t[1..least].iter().rev().fold(0u32, |n, &b| n << 8 | u32::from(b));
    let bit = |n: u32| flags >> n & 1 == 1;
    let (has_stamp, has_clock, has_layer) = (bit(2), bit(3), vp8 && bit(7));
    // The stamp, the source clock and the layer follow each other, each where its bit is set.
    let layer_at = least + if has_stamp { 4 } else { 0 } + if has_clock { 6 } else { 0 };
    if header < layer_at + if has_layer { 2 } else { 0 } {
        return Sort::Unreadable(65);
    }
    if !bit(if vp8 { 23 } else { 7 }) {
        return Sort::Unreadable(66);
    }
    if vp8 && !has_stamp {
        return Sort::Unreadable(67);
    }
    let stamp = if has_stamp { Some(u32::from_le_bytes([t[least], t[least + 1], t[least + 2], t[least + 3]])) } else { None };
    let layer = if has_layer { Some(u16::from_le_bytes([t[layer_at], t[layer_at + 1]])) } else { None };
    // D5 of a VP8 header marks an intra frame.
    Sort::Readable { fid: bit(0), eof: bit(1), still: !vp8 && bit(5), error: bit(6), stamp, layer, header }
}

/// A readable transfer, by its place in the list.
struct Piece {
    place: usize,
    fid: bool,
    eof: bool,
    still: bool,
    error: bool,
    stamp: Option<u32>,
    layer: Option<u16>,
    data: usize,
    /// An unreadable or lost transfer comes straight before, or straight after, with no readable one between (nor, after it, a mark).
    before: bool,
    after: bool,
    /// A mark comes straight after, with no readable transfer between.
    marked: bool,
}

/// What is reported with a frame that is delivered, or a still, beside its length: the first stamp, and the layer of its last transfer that has one.
#[derive(Clone, Copy, Debug, PartialEq)]
pub struct Delivery {
    pub stamp: Option<u32>,
    pub layer: Option<u16>,
}

#[derive(Clone, Copy, Debug, PartialEq)]
pub enum Becomes {
    Delivered(Delivery),
    Still(Delivery),
    Dropped(Reason),
    UnderWay,
}

/// One frame of the list: the places of its transfers, what became of it and how much data it has.
#[derive(Clone, Debug, PartialEq)]
pub struct Judged {
    pub places: Vec<usize>,
    pub becomes: Becomes,
    pub bytes: usize,
    /// How many of its transfers, from the first, come before any fault (their data is written), and how much data that is.
    pub written: usize,
    pub fill: usize,
    pub fid: bool,
    pub still: bool,
    pub fault: Option<Reason>,
    pub delivery: Delivery,
}

#[derive(Clone, Debug, Default)]
pub struct Verdict {
    pub frames: Vec<Judged>,
    pub strays: Vec<usize>,
    pub unreadable: Vec<usize>,
    pub headers: Vec<usize>,
    pub idle: u64,
    pub lost: u64,
    /// An unreadable or lost transfer came since the last readable one.
    pub gap: bool,
}

pub fn judge(calls: &[Call], opening: &Opening) -> Verdict {
    let eofs = opening.sends_eof();
    let mut v = Verdict::default();
    let mut pieces: Vec<Piece> = Vec::new();
    let mut spoilt = false;
    let mut closed = false;
    for (place, call) in calls.iter().enumerate() {
        let missing = match call {
            Call::Close => {
                closed = true;
                false
            }
            Call::Lost => {
                v.lost += 1;
                true
            }
            Call::Mark => {
                pieces.last_mut().unwrap().marked = true;
                false
            }
            Call::Transfer(t) => match sort(t, opening) {
                Sort::Idle => {
                    v.idle += 1;
                    false
                }
                Sort::Unreadable(_) => {
                    v.unreadable.push(t.len());
                    true
                }
                Sort::Readable { fid, eof, still, error, stamp, layer, header } => {
                    v.headers.push(header);
                    let data = t.len() - header;
                    pieces.push(Piece {
                        place,
                        fid,
                        eof: eof && eofs,
                        still,
                        error,
                        stamp,
                        layer,
                        data,
                        before: spoilt,
                        after: false,
                        marked: false,
                    });
                    spoilt = false;
                    false
                }
            },
        };
        if missing {
            spoilt = true;
            match pieces.last_mut() {
                Some(p) if !p.marked => p.after = true,
                _ => {}
            }
        }
    }
    v.gap = spoilt;
    let mut runs: Vec<Vec<Piece>> = Vec::new();
    for p in pieces {
        match runs.last_mut() {
            Some(run) if run[0].fid == p.fid => run.push(p),
            _ => runs.push(vec![p]),
        }
    }
    let last = runs.len();
    for (i, run) in runs.iter().enumerate() {
        let end = run.iter().position(|p| p.eof || p.marked);
        let (frame, stray) = run.split_at(end.map_or(run.len(), |e| e + 1));
        // Without EOF the transfer of the other FID completes the frame, and close alone cuts one.
        let turned = i + 1 < last;
        v.frames.push(one(frame, opening.frame, end.is_some() || (turned && !eofs), turned || closed));
        v.strays.extend(stray.iter().map(|p| p.data));
    }
    v
}

fn one(frame: &[Piece], frame_size: usize, complete: bool, over: bool) -> Judged {
    let first_stamp = frame.iter().find_map(|p| p.stamp);
    // Faults with how many transfers come before them, in the order of their moments:
    // before the first transfer, then at each transfer, then straight after it.
    let mut faults: Vec<(usize, Reason)> = Vec::new();
    let mut size = 0;
    if frame[0].before {
        faults.push((0, Reason::Gap));
    }
    for (i, p) in frame.iter().enumerate() {
        size += p.data;
        if p.error {
            faults.push((i, Reason::Error));
        }
        if p.stamp.is_some() && p.stamp != first_stamp {
            faults.push((i, Reason::Clock));
        }
        if p.still != frame[0].still {
            faults.push((i, Reason::Mixed));
        }
        if size > frame_size {
            faults.push((i, Reason::Long));
        }
        if p.after && !p.eof {
            faults.push((i + 1, Reason::Gap));
        }
    }
    let fault = faults.first().copied();
    let delivery = Delivery { stamp: first_stamp, layer: frame.iter().rev().find_map(|p| p.layer) };
    let becomes = match (complete, fault) {
        (true, Some((_, r))) => Becomes::Dropped(r),
        (true, None) if size == 0 => Becomes::Dropped(Reason::Empty),
        (true, None) if frame[0].still => Becomes::Still(delivery),
        (true, None) => Becomes::Delivered(delivery),
        (false, _) if !over => Becomes::UnderWay,
        (false, Some((_, r))) => Becomes::Dropped(r),
        (false, None) => Becomes::Dropped(Reason::Cut),
    };
    let written = fault.map_or(frame.len(), |(i, _)| i);
    Judged {
        places: frame.iter().map(|p| p.place).collect(),
        becomes,
        bytes: size,
        written,
        fill: frame[..written.min(frame.len())].iter().map(|p| p.data).sum(),
        fid: frame[0].fid,
        still: frame[0].still,
        fault: fault.map(|(_, r)| r),
        delivery,
    }
}

/// The ledger's numbers in the order of print.
pub fn ledger(v: &Verdict) -> Vec<u64> {
    let mut accounts = [(0u64, 0u64); 13];
    let mut add = |k: usize, n: usize| {
        accounts[k].0 += 1;
        accounts[k].1 += n as u64;
    };
    let mut stamps = Vec::new();
    let mut untimed = 0;
    for f in &v.frames {
        match f.becomes {
            Becomes::Delivered(d) => {
                add(0, f.bytes);
                match d.stamp {
                    Some(s) => stamps.push(s),
                    None => untimed += 1,
                }
            }
            // A still is billed apart: it has no part in the time.
            Becomes::Still(_) => add(7, f.bytes),
            Becomes::Dropped(r) => add(reason_number(r), f.bytes),
            Becomes::UnderWay => add(9, f.bytes),
        }
    }
    v.strays.iter().for_each(|&n| add(10, n));
    v.unreadable.iter().for_each(|&n| add(11, n));
    v.headers.iter().for_each(|&n| add(12, n));
    let steps: Vec<i64> = stamps.windows(2).map(|w| step(w[0], w[1])).collect();
    let ticks: i64 = steps.iter().filter(|&&s| s >= 0).sum();
    let backward = steps.iter().filter(|&&s| s < 0).count() as u64;
    let mut numbers: Vec<u64> = accounts.iter().flat_map(|&(c, b)| [c, b]).collect();
    numbers.extend([v.lost, v.idle, ticks as u64, backward, untimed]);
    numbers
}

/// Later minus earlier modulo 2^32, read as signed from -2^31 to 2^31 - 1.
pub fn step(earlier: u32, later: u32) -> i64 {
    let n = (i64::from(later) - i64::from(earlier)).rem_euclid(1 << 32);
    if n < 1 << 31 {
        n
    } else {
        n - (1 << 32)
    }
}

pub fn reason_number(r: Reason) -> usize {
    match r {
        Reason::Gap => 1,
        Reason::Error => 2,
        Reason::Clock => 3,
        Reason::Long => 4,
        Reason::Cut => 5,
        Reason::Empty => 6,
        Reason::Mixed => 8,
    }
}

pub fn reason_name(r: Reason) -> &'static str {
    ["", "gap", "error", "clock", "long", "cut", "empty", "", "mixed"][reason_number(r)]
}

/// What the last call of a list answers, from what the list came to without it and with it:
/// the reason of the frame that it ended, and, for a transfer, its own fate.
pub fn answer(calls: &[Call], old: &Verdict, new: &Verdict, opening: &Opening) -> (Option<Reason>, String) {
    let place = calls.len() - 1;
    let ended = match old.frames.last() {
        Some(f) if f.becomes == Becomes::UnderWay => {
            let now = &new.frames[old.frames.len() - 1];
            match now.becomes {
                Becomes::Dropped(r) if !now.places.contains(&place) => Some(r),
                _ => None,
            }
        }
        _ => None,
    };
    let fate = match &calls[place] {
        Call::Close | Call::Lost | Call::Mark => String::new(),
        Call::Transfer(t) => match sort(t, opening) {
            Sort::Idle => "idle".into(),
            Sort::Unreadable(k) => format!("unreadable {k}"),
            Sort::Readable { .. } => {
                let last = new.frames.last().unwrap();
                if !last.places.contains(&place) {
                    "stray".into()
                } else {
                    match last.becomes {
                        Becomes::UnderWay => "kept".into(),
                        Becomes::Dropped(r) => format!("dropped {}", reason_name(r)),
                        whole => handed_out(whole, last.bytes).unwrap(),
                    }
                }
            }
        },
    };
    (ended, fate)
}

/// A frame that is delivered, or a still, with its length, stamp and layer.
pub fn handed_out(becomes: Becomes, bytes: usize) -> Option<String> {
    match becomes {
        Becomes::Delivered(d) => Some(format!("delivered {bytes} {} {}", or_dash(d.stamp), or_dash(d.layer))),
        Becomes::Still(d) => Some(format!("still {bytes} {} {}", or_dash(d.stamp), or_dash(d.layer))),
        _ => None,
    }
}

/// What is handed out before a transfer is taken, if anything is: the camera sends no EOF, the transfer is readable, of another FID than the last
/// readable one taken, and the frame under way would be delivered, or be a still, if a mark stood here.
pub fn hand_out(calls: &[Call], old: &Verdict, transfer: &[u8], opening: &Opening) -> Option<String> {
    let fid_of = |t: &[u8]| match sort(t, opening) {
        Sort::Readable { fid, .. } => Some(fid),
        _ => None,
    };
    let fid = fid_of(transfer)?;
    let last = calls.iter().rev().find_map(|c| match c {
        Call::Transfer(t) => fid_of(t),
        _ => None,
    })?;
    if opening.sends_eof() || fid == last || old.frames.last()?.becomes != Becomes::UnderWay {
        return None;
    }
    let marked = judge(&[calls, &[Call::Mark]].concat(), opening);
    let frame = marked.frames.last()?;
    handed_out(frame.becomes, frame.bytes)
}

fn data(call: &Call) -> &[u8] {
    match call {
        Call::Transfer(t) => &t[t[0] as usize..],
        _ => &[],
    }
}

/// Where the last call of a list writes, and what: the data of a transfer whose frame has no fault up to and with it.
pub fn written<'a>(calls: &'a [Call], new: &Verdict) -> Option<(usize, &'a [u8])> {
    let frame = new.frames.last()?;
    let i = frame.places.iter().position(|&p| p + 1 == calls.len())?;
    if i >= frame.written {
        return None;
    }
    let at = frame.places[..i].iter().map(|&p| data(&calls[p]).len()).sum();
    Some((at, data(&calls[calls.len() - 1])))
}
