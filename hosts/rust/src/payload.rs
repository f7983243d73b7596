//! Reader, writer and count.
#![forbid(unsafe_code)]

use crate::ffi;
use crate::frames::{Frames, frames};
use crate::refusal::{Call, Reason, Refusal, answer};
use crate::session::Session;
use crate::time::Ticks;

/// What an accepted reading has put into the lent buffers, and what it says of the payload.
#[derive(Clone, Copy, Debug, PartialEq, Eq, Hash)]
#[non_exhaustive]
pub struct Reading {
    /// Rows, two numbers each.
    pub rows: usize,
    /// Body octets.
    pub octets: usize,
    /// The rate of the coder frames, 2400, 1200 or 600; none where there are no coder frames.
    pub rate: Option<u32>,
    /// How long the coder frames last.
    pub ticks: Ticks,
}

impl Reading {
    /// The frames of this reading, from the buffers that were lent to it: see
    /// [`frames`](crate::frames).
    ///
    /// Buffers that are shorter than what was read give an error for the last item.
    pub fn frames<'a>(&self, rows: &'a [u16], bodies: &'a [u8]) -> Frames<'a> {
        let numbers = rows.len().min(2 * self.rows);
        let octets = bodies.len().min(self.octets);
        frames(&rows[..numbers], &bodies[..octets])
    }
}

/// The number of frames, 0 to 200. Only the empty payload has none.
///
/// ```
/// assert_eq!(moult::count(&[]), Ok(0));
/// assert_eq!(moult::count(&[0; 14]), Ok(2));
/// assert_eq!(moult::count(&[0; 6]), Err(moult::Reason::FrameCut));
/// ```
///
/// # Errors
///
/// As [`read`], but for the room, and without a place.
pub fn count(payload: &[u8]) -> Result<usize, Reason> {
    let counted = ffi::count(payload);
    usize::try_from(counted).map_err(|_| counted.unsigned_abs().into())
}

/// Reads a payload: of each frame, oldest first, kind and TC into `rows` and its body into
/// `bodies`. [`MAX_NUMBERS`](crate::MAX_NUMBERS) numbers and [`MAX_OCTETS`](crate::MAX_OCTETS)
/// octets are enough for any payload.
///
/// ```
/// use moult::{Reason, Ticks};
/// let (mut rows, mut bodies) = ([0; 2], [0; 8]);
/// let tsvcis = [0, 0, 0, 0, 0, 0, 0, 0xAA, 0x01, 0xFF];
/// let reading = moult::read(&tsvcis, &mut rows, &mut bodies).unwrap();
/// assert_eq!((reading.rows, reading.octets), (1, 8));
/// assert_eq!((reading.rate, reading.ticks), (Some(2400), Ticks(180)));
/// assert_eq!((rows, bodies), ([5, 1], [0, 0, 0, 0, 0, 0, 0, 0xAA]));
///
/// let refusal = moult::read(&tsvcis, &mut [], &mut bodies).unwrap_err();
/// assert_eq!((refusal.reason, refusal.place), (Reason::NumbersTooShort, 1));
/// ```
///
/// # Errors
///
/// In this order: `TooLong`; from the last frame to the first, for each, `FrameCut` (255 alone),
/// `LongCountZero`, `ReservedBits`, `FrameCut`, `ComfortNoiseNotLast`, `AugmentationNot2400`,
/// `RatesMixed`; `NumbersTooShort`, `OctetsTooShort`.
pub fn read(payload: &[u8], rows: &mut [u16], bodies: &mut [u8]) -> Result<Reading, Refusal> {
    read_answer(Call::Read, ffi::read(payload, rows, bodies))
}

/// [`read`] in a session.
///
/// ```
/// use moult::{Call, Reason, Session};
/// let framed = [0, 0, 0, 0, 0, 0, 0x40, 0, 0, 0, 0, 0, 0, 0x00]; // bit 55 set, then clear
/// let (mut rows, mut bodies) = ([0; 4], [0; 14]);
/// let reading = moult::read_in(Session::Agreed(600), &framed, &mut rows, &mut bodies).unwrap();
/// assert_eq!((reading.rate, rows), (Some(600), [3, 0, 3, 0]));
/// assert_eq!(bodies, framed);
///
/// let wrong = moult::read_in(Session::Agreed(1200), &framed, &mut rows, &mut bodies);
/// let refusal = wrong.unwrap_err();
/// assert_eq!((refusal.reason, refusal.place), (Reason::Unknown, 0));
/// assert_eq!(refusal.call, Call::Session);
/// ```
///
/// # Errors
///
/// `Unknown` for an agreed rate that is not 2400 or 600, before all else; then as [`read`].
pub fn read_in(
    session: Session,
    payload: &[u8],
    rows: &mut [u16],
    bodies: &mut [u8],
) -> Result<Reading, Refusal> {
    let read = ffi::read_session(session.numbers(), payload, rows, bodies);
    read_answer(session.or(Call::Read), read)
}

fn read_answer(call: Call, read: ffi::Reading) -> Result<Reading, Refusal> {
    let reading = Reading {
        rows: read.rows,
        octets: read.octets,
        rate: Some(read.rate).filter(|rate| *rate != 0),
        ticks: Ticks(read.ticks),
    };
    answer(call, read.number, read.place, reading)
}

/// Writes the payload of `rows` (kind and TC of each frame) and `bodies` (one after another) into
/// `out`, and gives its octets. [`MAX_OCTETS`](crate::MAX_OCTETS) are enough for any payload.
///
/// ```
/// let mut out = [0; 7];
/// assert_eq!(moult::write(&[3, 0], &[0; 7], &mut out), Ok(7));
/// assert_eq!(out, [0, 0, 0, 0, 0, 0, 0x40]);
///
/// let refusal = moult::write(&[3, 0, 1, 0], &[0; 14], &mut out).unwrap_err();
/// assert_eq!((refusal.reason, refusal.place), (moult::Reason::RatesMixed, 1));
/// ```
///
/// # Errors
///
/// In this order: `OddRows`; `TooLong` for more than 200 rows; row by row `Unknown`, `WrongTc`,
/// `ComfortNoiseNotLast`, `RatesMixed`; `TooLong` for the total; `WrongLength` of the bodies;
/// `ReservedBits` at the first bad body end; `OctetsTooShort`.
pub fn write(rows: &[u16], bodies: &[u8], out: &mut [u8]) -> Result<usize, Refusal> {
    let writing = ffi::write(rows, bodies, out);
    answer(Call::Write, writing.number, writing.place, writing.octets)
}

/// [`write()`] in a session.
///
/// ```
/// use moult::{Reason, Session};
/// let body = [0, 0, 0, 0, 0, 0, 0x40];
/// let mut out = [0; 7];
/// assert_eq!(moult::write_in(Session::Agreed(600), &[3, 0], &body, &mut out), Ok(7));
/// assert_eq!(out, body);
///
/// let refusal = moult::write_in(Session::Agreed(600), &[1, 0], &body, &mut out).unwrap_err();
/// assert_eq!((refusal.reason, refusal.place), (Reason::RatesMixed, 0));
/// ```
///
/// # Errors
///
/// `Unknown` for an agreed rate that is not 2400 or 600, before all else; then as [`write()`].
pub fn write_in(
    session: Session,
    rows: &[u16],
    bodies: &[u8],
    out: &mut [u8],
) -> Result<usize, Refusal> {
    let writing = ffi::write_session(session.numbers(), rows, bodies, out);
    let call = session.or(Call::Write);
    answer(call, writing.number, writing.place, writing.octets)
}
