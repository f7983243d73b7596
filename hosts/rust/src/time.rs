//! Time on the clock and time in settings: two units, kept apart.
#![forbid(unsafe_code)]

use crate::ffi;
use crate::refusal::{Call, Refusal, answer};
use crate::session::Session;
use core::fmt;

/// Clock ticks of 1/8000 second.
#[derive(Clone, Copy, Debug, Default, PartialEq, Eq, PartialOrd, Ord, Hash)]
pub struct Ticks(pub usize);

/// Milliseconds.
#[derive(Clone, Copy, Debug, Default, PartialEq, Eq, PartialOrd, Ord, Hash)]
pub struct Millis(pub usize);

impl fmt::Display for Ticks {
    fn fmt(&self, f: &mut fmt::Formatter<'_>) -> fmt::Result {
        write!(f, "{} ticks", self.0)
    }
}

impl fmt::Display for Millis {
    fn fmt(&self, f: &mut fmt::Formatter<'_>) -> fmt::Result {
        write!(f, "{} ms", self.0)
    }
}

/// The ticks that a payload's coder frames last; comfort noise adds none.
///
/// ```
/// assert_eq!(moult::packet_ticks(&[0; 7]), Ok(moult::Ticks(180)));
/// assert_eq!(moult::packet_ticks(&[0, 0xA0]), Ok(moult::Ticks(0)));
/// assert!(moult::packet_ticks(&[0xFF]).is_err());
/// ```
///
/// # Errors
///
/// As [`read`](crate::read), but for the room.
pub fn packet_ticks(payload: &[u8]) -> Result<Ticks, Refusal> {
    ticks_answer(Call::PacketTicks, ffi::packet_ticks(payload))
}

/// [`packet_ticks`] in a session.
///
/// ```
/// use moult::{Session, Ticks};
/// assert_eq!(moult::packet_ticks_in(Session::Agreed(600), &[0; 7]), Ok(Ticks(720)));
/// assert!(moult::packet_ticks_in(Session::Agreed(0), &[0; 7]).is_err());
/// ```
///
/// # Errors
///
/// As [`read_in`](crate::read_in), but for the room.
pub fn packet_ticks_in(session: Session, payload: &[u8]) -> Result<Ticks, Refusal> {
    let time = ffi::packet_ticks_session(session.numbers(), payload);
    ticks_answer(session.or(Call::PacketTicks), time)
}

fn ticks_answer(call: Call, time: ffi::Ticks) -> Result<Ticks, Refusal> {
    answer(call, time.number, time.place, Ticks(time.ticks))
}

/// The ptime of 1 to 200 frames at rate 2400, 1200 or 600, rounded up.
///
/// ```
/// assert_eq!(moult::ptime(2400, 5), Ok(moult::Millis(113)));
/// assert!(moult::ptime(2400, 201).is_err());
/// ```
///
/// # Errors
///
/// `Unknown` for any other rate or number of frames.
pub fn ptime(rate: u32, frames: usize) -> Result<Millis, Refusal> {
    let time = ffi::ptime(rate, frames);
    answer(Call::Ptime, time.number, time.place, Millis(time.millis))
}
