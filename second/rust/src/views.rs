//! Frames shown in place ("Views"): where they stand in the payload.

use crate::payload::{Named, name, walk_framed};
use crate::session::Session;
use std::ops::Range;

/// Start and name of a row's frame.
#[inline]
fn locate(session: Session, payload: &[u8], row: usize) -> Option<(usize, Named)> {
    let framing = session.framing().ok()?;
    let walked = walk_framed(framing, payload).ok()?;
    let mut later = walked.frames.checked_sub(row.checked_add(1)?)?;
    let mut unread = payload;
    loop {
        let frame = name(framing, unread, *unread.last()?).ok()?;
        let start = unread.len() - frame.wire;
        if later == 0 {
            return Some((start, frame));
        }
        later -= 1;
        unread = &unread[..start];
    }
}

/// The augmentation of a row; 0 to 0 where the payload is refused, the row missing or its frame has
/// none.
pub fn augmentation(payload: &[u8], row: usize) -> Range<usize> {
    augmentation_in(Session::NotAgreed, payload, row)
}

#[inline]
pub fn augmentation_in(session: Session, payload: &[u8], row: usize) -> Range<usize> {
    match locate(session, payload, row) {
        Some((start, frame)) if frame.tc != 0 => {
            let start = start + frame.kind.base;
            start..start + usize::from(frame.tc)
        }
        _ => 0..0,
    }
}

/// The wire octets of a row; none, where the payload is refused or the row missing, for the whole
/// stand-in.
pub fn frame(payload: &[u8], row: usize) -> Option<Range<usize>> {
    frame_in(Session::NotAgreed, payload, row)
}

#[inline]
pub fn frame_in(session: Session, payload: &[u8], row: usize) -> Option<Range<usize>> {
    locate(session, payload, row).map(|(start, frame)| start..start + frame.wire)
}
