//! Frames shown in place: parts of the lent buffers, never copies.
#![forbid(unsafe_code)]

use crate::ffi;
use crate::session::Session;

/// A row's wire octets, or the stand-in.
#[derive(Clone, Copy, Debug, PartialEq, Eq)]
pub enum Shown<'a> {
    /// The row's own octets within the payload, rate code bits and count included.
    Frame(&'a [u8]),
    /// The whole stand-in: the payload is refused or the row missing.
    StandIn(&'a [u8]),
}

impl<'a> Shown<'a> {
    /// The octets, wherever they stand.
    pub fn octets(self) -> &'a [u8] {
        match self {
            Shown::Frame(octets) | Shown::StandIn(octets) => octets,
        }
    }
}

/// The augmentation of a row within the payload; empty, at the payload's start, if the payload is
/// refused, the row is missing or its frame is not TSVCIS.
///
/// ```
/// let tsvcis = [0, 0, 0, 0, 0, 0, 0, 0xAA, 0x01, 0xFF];
/// assert_eq!(moult::augmentation(&tsvcis, 0), [0xAA]);
/// assert_eq!(moult::augmentation(&tsvcis, 1), []);
/// ```
pub fn augmentation(payload: &[u8], row: usize) -> &[u8] {
    of_payload(ffi::augmentation(payload, row), payload)
}

/// [`augmentation`] in a session.
///
/// ```
/// use moult::Session;
/// let tsvcis = [0, 0, 0, 0, 0, 0, 0x40, 0xAA, 0x01, 0xFF];
/// assert_eq!(moult::augmentation_in(Session::Agreed(2400), &tsvcis, 0), [0xAA]);
/// assert_eq!(moult::augmentation_in(Session::NotAgreed, &tsvcis, 0), []);
/// ```
pub fn augmentation_in(session: Session, payload: &[u8], row: usize) -> &[u8] {
    let part = ffi::augmentation_session(session.numbers(), payload, row);
    of_payload(part, payload)
}

fn of_payload(part: ffi::Part, payload: &[u8]) -> &[u8] {
    &payload[part.start..][..part.length]
}

/// The wire octets of a row within the payload or, if the payload is refused or the row missing,
/// the whole stand-in, which is never looked at.
///
/// ```
/// use moult::Shown;
/// let payload = [0, 0, 0, 0, 0, 0, 0, 0x00, 0xA0];
/// assert_eq!(moult::frame_or(&payload, 1, b"last"), Shown::Frame(&[0x00, 0xA0]));
/// assert_eq!(moult::frame_or(&payload, 2, b"last"), Shown::StandIn(b"last"));
/// ```
pub fn frame_or<'a>(payload: &'a [u8], row: usize, stand_in: &'a [u8]) -> Shown<'a> {
    shown(ffi::frame_or(payload, row, stand_in), payload, stand_in)
}

/// [`frame_or`] in a session.
///
/// ```
/// use moult::{Session, Shown};
/// let framed = [0, 0, 0, 0, 0, 0, 0x00, 0, 0, 0, 0, 0, 0, 0x40]; // bit 55 clear, then set
/// let shown = |session| moult::frame_or_in(session, &framed, 1, b"last");
/// assert_eq!(shown(Session::Agreed(600)), Shown::Frame(&[0, 0, 0, 0, 0, 0, 0x40]));
/// assert_eq!(shown(Session::NotAgreed), Shown::StandIn(b"last"));
/// assert_eq!(shown(Session::Agreed(1200)), Shown::StandIn(b"last"));
/// ```
pub fn frame_or_in<'a>(
    session: Session,
    payload: &'a [u8],
    row: usize,
    stand_in: &'a [u8],
) -> Shown<'a> {
    let part = ffi::frame_or_session(session.numbers(), payload, row, stand_in);
    shown(part, payload, stand_in)
}

fn shown<'a>(part: ffi::Part, payload: &'a [u8], stand_in: &'a [u8]) -> Shown<'a> {
    if part.stand_in == 0 {
        Shown::Frame(of_payload(part, payload))
    } else {
        Shown::StandIn(&stand_in[part.start..][..part.length])
    }
}
