//! Any case at random: well-formed ones, and the same with damage.

use crate::making::cases::Case;
use crate::making::chance::Random;
use crate::making::random::calls::{calls, room};
use crate::making::random::configurations;
use crate::making::random::control::{control, linked_control, maybe_damaged_control};
use crate::making::random::probe::{probe, write};
use crate::making::random::records::{forged, from, lent};
use crate::making::random::senders::sent;
use crate::making::random::settings::settings;
use crate::making::random::streaming::{hostile, maybe_damaged_streaming, streaming};
use crate::making::random::traces::traced;
use crate::reading::streaming::table;

/// Any case; lists of calls have up to `most` calls.
pub fn case(r: &mut Random, most: usize) -> Case {
    match r.below(25) {
        0..=2 => Case::Control(maybe_damaged_control(r)),
        3 => {
            let block = if r.once_in(5) { maybe_damaged_control(r) } else { control(r) };
            let id = if r.once_in(4) { r.byte() } else { 1 + r.below(8) as u8 };
            if r.once_in(4) {
                return Case::Map(block, id);
            }
            Case::WholeMap(block, id)
        }
        4..=5 => {
            let control = linked_control(r);
            let (block, _) = maybe_damaged_streaming(r);
            Case::Streaming(control, block)
        }
        6 => hostile(r),
        7..=8 => {
            let control = linked_control(r);
            let (block, offered) = if r.once_in(6) { maybe_damaged_streaming(r) } else { streaming(r) };
            let probe = probe(r, table(&control).revision, &offered);
            Case::Check(control, block, probe)
        }
        9 => write(r),
        10 if r.once_in(2) => lent(r),
        10 => forged(r),
        11 if r.once_in(25) => room(r),
        11 => from(r, most),
        12 | 13 => configurations::case(r),
        14..=16 => settings(r),
        17 | 18 => sent(r),
        23 | 24 => traced(r, most),
        _ => calls(r, most),
    }
}
