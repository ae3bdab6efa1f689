//! A sender of frames, from document 02 (Nine): what each call of it answers, and a case of a sender with its receiver.

use crate::reading::flags::{END, EOF, FID, PTS};
use crate::reading::frames::{Call, Opening};
use crate::reading::session;
use crate::reading::told::{hash, Told};
use crate::reading::traces::LONG;
use std::fmt::Write;

#[derive(Clone, Debug)]
pub struct Frame {
    pub stamp: Option<u32>,
    pub bytes: Vec<u8>,
}

/// The FID of the frame, and how many of its bytes are sent.
#[derive(Clone, Debug, Default)]
pub struct Sender {
    pub fid: bool,
    pub at: usize,
}

#[derive(Clone, Debug, PartialEq)]
pub enum Sent {
    Refused(u8),
    AfterTheLast,
    Transfer(Vec<u8>),
}

impl Sender {
    /// Goes on to the next frame.
    pub fn next(&mut self) {
        *self = Sender { fid: !self.fid, at: 0 };
    }

    /// The frame's next transfer, for a room of so many bytes.
    pub fn send(&mut self, f: &Frame, payload: usize, room: usize) -> Sent {
        let header = if f.stamp.is_some() { 6 } else { 2 };
        if !(1..=16_777_216).contains(&f.bytes.len()) {
            return Sent::Refused(80);
        }
        if !(header + 1..=65_536).contains(&payload) {
            return Sent::Refused(81);
        }
        // All that is left, cut at what a transfer holds beside its header.
        let Some(data) = f.bytes.get(self.at..).and_then(|left| left.chunks(payload - header).next()) else {
            return Sent::AfterTheLast;
        };
        if room < header + data.len() {
            return Sent::Refused(82);
        }
        self.at += data.len();
        let ends = self.at == f.bytes.len();
        let flags = END | if self.fid { FID } else { 0 } | if ends { EOF } else { 0 } | if f.stamp.is_some() { PTS } else { 0 };
        let stamp = f.stamp.map_or(vec![], |s| s.to_le_bytes().to_vec());
        Sent::Transfer([&[header as u8, flags], &stamp[..], data].concat())
    }
}

/// A sender and its receiver: how the receiver is opened and the length of its room, the sender's payload size, the length of the room that it is lent, and
/// the frames, each with whether the sender goes on to a next frame before it.
#[derive(Clone, Debug)]
pub struct Pair {
    pub opening: Opening,
    pub buffer: usize,
    pub payload: u32,
    pub room: usize,
    pub frames: Vec<(bool, Frame)>,
}

impl Pair {
    /// What the sender answers, line by line, each with the transfer that it wrote.
    fn sent(&self) -> Vec<(String, Option<Vec<u8>>)> {
        let mut all = Vec::new();
        let mut sender = Sender::default();
        let mut room = vec![0; self.room];
        for (next, frame) in &self.frames {
            if *next {
                sender.next();
            }
            // After the last transfer it is asked once more.
            let mut over = 0;
            while over < 2 {
                let sent = sender.send(frame, self.payload as usize, self.room);
                let said = match &sent {
                    Sent::Refused(k) => {
                        over = 2;
                        format!("refused {k}")
                    }
                    Sent::AfterTheLast => {
                        over += 1;
                        "after the last".to_string()
                    }
                    Sent::Transfer(t) => {
                        room[..t.len()].copy_from_slice(t);
                        format!("sent {}", t.len())
                    }
                };
                let written = if let Sent::Transfer(t) = sent { Some(t) } else { None };
                all.push((format!("{said} hash {}\n", hash(&room)), written));
            }
            all.push((format!("sender {} {}\n", u8::from(sender.fid), sender.at), None));
        }
        all
    }

    /// The transfers, in order: each is offered to the receiver.
    fn transfers(&self) -> Vec<Call> {
        self.sent().into_iter().filter_map(|(_, t)| t.map(Call::Transfer)).collect()
    }

    pub fn calls(&self) -> usize {
        self.transfers().len()
    }

    /// All that is printed: behind each transfer that was sent what the receiver answers, and its ledger and record at the end.
    pub fn answer(&self) -> String {
        let told = session::calls(&self.opening, &vec![0; self.buffer], &self.transfers(), Told::Whole);
        let mut lines = told.lines();
        let mut out = String::new();
        writeln!(out, "{}", lines.next().unwrap()).unwrap();
        for (said, transfer) in self.sent() {
            out += &said;
            if transfer.is_some() {
                writeln!(out, "{}", lines.next().unwrap()).unwrap();
            }
        }
        lines.for_each(|line| writeln!(out, "{line}").unwrap());
        out
    }
}

/// The long trace of frames that are sent one after the other, then close; or the trace up to a frame that is refused, and its number.
pub fn trace(frames: &[Frame], payload: usize) -> (Vec<u8>, Option<u8>) {
    let mut out = Vec::new();
    let mut sender = Sender::default();
    for (i, f) in frames.iter().enumerate() {
        if i > 0 {
            sender.next();
        }
        loop {
            match sender.send(f, payload, LONG.most()) {
                Sent::Transfer(t) => out.extend(LONG.record(&Call::Transfer(t))),
                Sent::AfterTheLast => break,
                Sent::Refused(k) => return (out, Some(k)),
            }
        }
    }
    out.extend(LONG.record(&Call::Close));
    (out, None)
}
