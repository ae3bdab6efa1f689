//! The sizes that a session is opened with, and a probe block asks for.

use crate::reading::refusal::Refusal;

/// 45 and 46.
pub fn sizes(frame: u64, payload: u64) -> Result<(), Refusal> {
    if frame == 0 || frame > 16_777_216 {
        return Err(Refusal { number: 45, offset: 0 });
    }
    if payload < 2 || payload > 65_536 {
        return Err(Refusal { number: 46, offset: 0 });
    }
    Ok(())
}
