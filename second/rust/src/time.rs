//! Time on the clock, in ticks of 1/8000 second, and time in settings, in milliseconds ("Time").

use crate::MAX_FRAMES;
use crate::payload::walk_in;
use crate::refusal::{Refusal, UNKNOWN, refuse};
use crate::session::Session;

/// Ticks of a coder frame of the rate, 0 where it is none.
pub(crate) const fn ticks_of(rate: u32) -> usize {
    match rate {
        2400 => 180,
        1200 => 540,
        600 => 720,
        _ => 0,
    }
}

pub fn packet_ticks(payload: &[u8]) -> Result<usize, Refusal> {
    packet_ticks_in(Session::NotAgreed, payload)
}

#[inline]
pub fn packet_ticks_in(session: Session, payload: &[u8]) -> Result<usize, Refusal> {
    walk_in(session, payload).map(|walked| walked.ticks)
}

/// Milliseconds, rounded up.
pub fn ptime(rate: u32, frames: usize) -> Result<usize, Refusal> {
    let ticks = ticks_of(rate);
    if ticks == 0 || frames == 0 || frames > MAX_FRAMES {
        return refuse(UNKNOWN, 0);
    }
    Ok((frames * ticks).div_ceil(8))
}
