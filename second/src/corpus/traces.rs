//! Traces of both forms: every kind of bad record, every fate, steps, sizes, and reads that split a record.

use crate::corpus::calls::ledger_sample;
use crate::making::cases::{Case, Traced, SHOWS};
use crate::making::transfers::*;
use crate::reading::flags::*;
use crate::reading::frames::{Call, Opening};
use crate::reading::traces::{Form, Show, LEDGER, LONG, REPLAY, SHORT};

pub fn all() -> Vec<Case> {
    let mut all = samples();
    all.extend(fates());
    all.extend(bad());
    all.extend(long_lengths());
    all.extend(openings());
    all
}

fn send(flags: u8, data: &[u8]) -> Call {
    Call::Transfer(transfer(END | flags, 7, 0, data))
}

fn stamped(flags: u8, stamp: u32, data: &[u8]) -> Call {
    Call::Transfer(transfer(END | PTS | flags, stamp, 0, data))
}

fn laid(form: &Form, calls: &[Call]) -> Vec<u8> {
    calls.iter().flat_map(|c| form.record(c)).collect()
}

fn case(form: &Form, show: Option<Show>, o: &Opening, read: usize, trace: &[u8]) -> Case {
    let (frame, payload) = (o.frame as u32, o.payload as u32);
    Case::Trace(Traced { long: form == &LONG, show, frame, payload, read: read as u32, trace: trace.to_vec() })
}

/// The sample of a replay.
fn sample() -> Vec<Call> {
    vec![
        stamped(EOF, 0xFFFF_FFF0, b"abc"),
        stamped(FID | STILL | EOF, 7, b"s"),
        send(EOF, b"xy"),
        stamped(FID | EOF, 0x10, b"z"),
        stamped(EOF, 0x0B, b"z"),
        Call::Lost,
        stamped(FID | EOF, 3, b"q"),
        stamped(EOF, 0x0B, b"zz"),
    ]
}

/// The samples of both documents, in both forms, in reads that split a record and in ones that hold several; and no records.
fn samples() -> Vec<Case> {
    let bill = ledger_sample();
    let mut all = Vec::new();
    for show in SHOWS {
        for calls in [&bill[..], &sample(), &[], &[Call::Close]] {
            all.push(case(&SHORT, show, &LEDGER, 70_000, &laid(&SHORT, calls)));
        }
        for read in [1, 63, 64, 65, 100, 129] {
            all.push(case(&SHORT, show, &REPLAY, read, &laid(&SHORT, &sample())));
        }
        if show.is_some() {
            for calls in [&bill[..], &[]] {
                all.push(case(&LONG, show, &REPLAY, 70_000, &laid(&LONG, calls)));
            }
        }
    }
    for (show, read) in [
        (Show::Replay, 70_000),
        (Show::Replay, 1),
        (Show::Replay, 3_075),
        (Show::Frames, 3_076),
        (Show::Frames, 3_077),
        (Show::Ledger, 1_000),
    ] {
        all.push(case(&LONG, Some(show), &REPLAY, read, &laid(&LONG, &sample())));
    }
    all
}

/// Every fate with a stamp and without; two frames that one record ends; a stamp that comes late; steps on both sides of the half; stills that move no step.
fn fates() -> Vec<Case> {
    let lists: Vec<Vec<Call>> = vec![
        vec![stamped(0, 5, &[1]), Call::Lost, send(EOF, &[2, 3]), send(FID | EOF | ERROR, &[4]), stamped(EOF | ERROR, 9, &[])],
        vec![stamped(0, 5, &[1]), stamped(EOF, 6, &[2]), send(FID, &[1]), stamped(FID | STILL | EOF, 8, &[2]), Call::Close],
        vec![send(0, &[1; 40]), stamped(0, 3, &[1; 40]), send(EOF, &[2; 40]), send(FID | EOF, &[]), stamped(EOF, 4, &[]), send(FID, &[6])],
        vec![send(0, &[1]), send(STILL | EOF, &[2])],
        vec![send(0, &[1, 2]), stamped(FID | EOF, 4, &[3]), stamped(0, 6, &[4]), stamped(FID, 7, &[5, 6]), Call::Close],
        vec![
            stamped(STILL, 5, &[1]),
            stamped(STILL | EOF, 5, &[2]),
            send(FID | STILL | EOF, &[3]),
            stamped(EOF, 8, &[4]),
            stamped(FID | STILL | EOF, 9, &[5]),
            stamped(EOF, 10, &[6]),
        ],
        vec![
            send(EOF, &[1]),
            stamped(FID | EOF, 1, &[2]),
            send(EOF, &[3]),
            stamped(FID | EOF, 1, &[4]),
            stamped(EOF, 0, &[5]),
            Call::Transfer(vec![]),
        ],
        vec![
            stamped(EOF, 0, &[1]),
            stamped(FID | EOF, 0x7FFF_FFFF, &[2]),
            stamped(EOF, 0xFFFF_FFFF, &[3]),
            stamped(FID | EOF, 0x7FFF_FFFF, &[4]),
            stamped(EOF, 0x7FFF_FFFE, &[5]),
        ],
        vec![
            stamped(EOF, 100, &[1]),
            stamped(FID, 1, &[2]),
            stamped(0, 0x8000_0064, &[3]),
            send(EOF, &[4]),
            stamped(FID | EOF, 99, &[5]),
            send(FID | EOF, &[6]),
            send(0, &[7]),
        ],
        vec![Call::Transfer(vec![2, 0]), stamped(EOF, 4, &[1]), Call::Lost, send(FID, &[2]), Call::Lost, Call::Close],
    ];
    let mut all = Vec::new();
    let small = Opening { frame: 100, ..LEDGER };
    for show in [Show::Replay, Show::Frames] {
        for (i, calls) in lists.iter().enumerate() {
            all.push(case(&SHORT, Some(show), &small, 64 + i, &laid(&SHORT, calls)));
        }
    }
    // More than nine lines.
    let many: Vec<Call> = (0..120u32).map(|i| stamped(EOF | (i as u8 & 1), i * i * 40_000_000, &vec![9; (i % 55) as usize])).collect();
    all.push(case(&SHORT, Some(Show::Replay), &small, 500, &laid(&SHORT, &many)));
    all.push(case(&SHORT, Some(Show::Frames), &small, 7, &laid(&SHORT, &many)));
    all
}

/// Every kind of bad record, as the first and behind a frame; lines before it stay.
fn bad() -> Vec<Case> {
    let mut all = Vec::new();
    for form in [&SHORT, &LONG] {
        let size = form.size;
        let record = |call: &Call| form.record(call);
        let with = |call: &Call, at: usize, value: u8| {
            let mut r = record(call);
            r[at] = value;
            r
        };
        let data = size - form.most();
        // The byte of the length that counts ones.
        let low = data / 2;
        let frame = send(EOF, &[1, 2, 3]);
        let close = Call::Close;
        let mut wrong = vec![
            with(&Call::Lost, 0, 3),
            with(&frame, 0, 0xFF),
            with(&Call::Transfer(vec![]), size - 1, 1),
            with(&frame, data + 5, 1),
            with(&frame, low, 4),
            with(&Call::Lost, low, 1),
            with(&close, low, 1),
            with(&Call::Lost, data, 1),
            with(&close, size - 1, 0x80),
            with(&Call::Transfer(vec![7; form.most()]), low, 0xFF),
            [record(&close), record(&close)].concat(),
            [record(&close), record(&Call::Lost)].concat(),
            [record(&close), vec![0]].concat(),
            [record(&close), vec![9; size]].concat(),
            record(&frame)[..size - 1].to_vec(),
            vec![0],
            vec![2],
        ];
        // These two are good: a shorter transfer of zeros, and one that fills the record.
        wrong.push(with(&Call::Transfer(vec![0; 4]), low, 3));
        wrong.push(record(&Call::Transfer(vec![7; form.most()])));
        if form == &LONG {
            wrong.extend([
                with(&frame, 1, 1),
                with(&Call::Lost, 1, 0xFF),
                with(&close, 1, 1),
                with(&frame, 3, 1),
                with(&Call::Lost, 3, 1),
                with(&Call::Transfer(vec![7; form.most()]), low, 1),
                with(&Call::Transfer(vec![0; 3_072]), 3, 0x0D),
            ]);
        } else {
            wrong.push(with(&Call::Transfer(vec![7; 62]), 1, 63));
        }
        let front = laid(form, &[frame.clone(), stamped(FID | EOF, 5, &[8])]);
        for (i, w) in wrong.iter().enumerate() {
            let shows: &[Option<Show>] = match (form == &LONG, i % 3) {
                (true, 0) => &[Some(Show::Replay)],
                (true, 1) => &[Some(Show::Frames)],
                (true, _) => &[Some(Show::Ledger)],
                _ => &SHOWS,
            };
            for &show in shows {
                all.push(case(form, show, &LEDGER, size + 9 * i, w));
                all.push(case(form, show, &LEDGER, 1 + 31 * i, &[&front[..], w, &front].concat()));
            }
        }
    }
    all
}

/// Long transfers: lengths on both sides of a byte, and up to the most; frames of several of them around the frame size; payload sizes around them.
fn long_lengths() -> Vec<Case> {
    let mut all = Vec::new();
    let of = |flags: u8, n: usize| send(flags, &vec![0x5A; n - 2]);
    for lengths in [[2, 255, 256, 257], [258, 512, 768, 1_000], [3_071, 3_072, 3_070, 3_069]] {
        let calls: Vec<Call> = lengths.iter().enumerate().map(|(i, &n)| of(EOF | (i as u8 & 1), n)).collect();
        all.push(case(&LONG, Some(Show::Replay), &REPLAY, 3_000, &laid(&LONG, &calls)));
        for payload in [256, 3_071] {
            all.push(case(&LONG, Some(Show::Frames), &Opening { payload, ..REPLAY }, 4_000, &laid(&LONG, &calls)));
        }
    }
    for last in [5, 6] {
        // 20 full transfers have 61,400 bytes of data: with 40 more the frame is as long as it may be.
        let calls: Vec<Call> = (0..20).map(|_| of(0, 3_072)).chain([of(EOF, 37 + last)]).collect();
        all.push(case(&LONG, Some(Show::Frames), &REPLAY, 70_000, &laid(&LONG, &calls)));
    }
    all
}

/// 45 and 46, whatever the trace; and sizes at their edges.
fn openings() -> Vec<Case> {
    let mut all = Vec::new();
    let good = laid(&SHORT, &sample());
    for show in SHOWS {
        for (frame, payload) in
            [(0, 62), (0, 0), (16_777_217, 1), (16_777_216, 65_536), (1, 2), (1, 1), (256, 65_537), (2, 9), (0xFFFF_FFFF, 0xFFFF_FFFF)]
        {
            let o = Opening { frame, payload, ..LEDGER };
            all.push(case(&SHORT, show, &o, 64, &good));
            all.push(case(&SHORT, show, &o, 64, &[3]));
        }
    }
    all
}
