//! The reader and the count ("Legal sequences", "Reading" and "Count"): a walk from the last frame
//! to the first, then a second one that fills.

use crate::MAX_OCTETS;
use crate::kinds::{COMFORT_NOISE, Kind, PLAIN_600, PLAIN_1200, PLAIN_2400, TSVCIS, TSVCIS_LONG};
use crate::refusal::{
    AUGMENTATION_NOT_2400, COMFORT_NOISE_NOT_LAST, FRAME_CUT, LONG_COUNT_ZERO, NUMBERS_TOO_SHORT,
    OCTETS_TOO_SHORT, RATES_MIXED, RESERVED_BITS, Refusal, TOO_LONG, refuse,
};
use crate::session::{Framing, Session};

/// A frame as its last octets name it.
#[derive(Clone, Copy)]
pub(crate) struct Named {
    pub kind: Kind,
    pub tc: u16,
    /// Its octets, count included.
    pub wire: usize,
}

#[inline]
fn plain(kind: Kind) -> Named {
    Named {
        kind,
        tc: 0,
        wire: kind.base,
    }
}

/// With the octets that its count has.
#[inline]
fn augmented(kind: Kind, tc: u8, count: usize) -> Named {
    Named {
        kind,
        tc: tc.into(),
        wire: kind.base + usize::from(tc) + count,
    }
}

/// Names the frame that ends the unread octets, whose last octet is `last`, or gives the refusal's
/// number.
#[inline(always)]
pub(crate) fn name(framing: Framing, unread: &[u8], last: u8) -> Result<Named, u32> {
    let plain = |kind| Ok(plain(framing.kind(kind)));
    let augmented = |kind, tc, count| Ok(augmented(framing.kind(kind), tc, count));
    match (last, framing) {
        (0..=63, Framing::No) | (0..=127, Framing::At2400) => plain(PLAIN_2400),
        (64..=127, Framing::No) | (0..=127, Framing::At600) => plain(PLAIN_600),
        (128..=129, _) => plain(PLAIN_1200),
        (130..=159, _) => Err(RESERVED_BITS),
        (160..=191, _) => plain(COMFORT_NOISE),
        (192..=254, _) => augmented(TSVCIS, last - 192 + 15, 1),
        (255, _) => match unread {
            [.., 0, _] => Err(LONG_COUNT_ZERO),
            [.., tc @ 15..=77, _] => augmented(TSVCIS_LONG, *tc, 2),
            [.., tc, _] => augmented(TSVCIS, *tc, 2),
            _ => Err(FRAME_CUT),
        },
    }
}

/// The same, and whether the frame may stand there: before `later` frames, where coder frames must be
/// of the rate, 0 for any.
#[inline(always)]
fn step(framing: Framing, unread: &[u8], last: u8, later: usize, rate: u32) -> Result<Named, u32> {
    let frame = name(framing, unread, last)?;
    let Some(start) = unread.len().checked_sub(frame.wire) else {
        return Err(FRAME_CUT);
    };
    if !frame.kind.is_coder_frame() {
        return if later > 0 {
            Err(COMFORT_NOISE_NOT_LAST)
        } else {
            Ok(frame)
        };
    }
    if frame.tc != 0 && unread[start + frame.kind.base - 1] > frame.kind.end {
        return Err(AUGMENTATION_NOT_2400);
    }
    if rate != 0 && rate != frame.kind.rate {
        return Err(RATES_MIXED);
    }
    Ok(frame)
}

/// What a walk comes to.
#[derive(Clone, Copy, Debug, Default, PartialEq, Eq)]
pub struct Walked {
    pub frames: usize,
    /// Octets of the bodies.
    pub octets: usize,
    /// The rate of the coder frames, 0 where there are none.
    pub rate: u32,
    pub ticks: usize,
}

/// Until a coder frame is read an agreed rate holds, which is not reported.
#[inline(always)]
pub(crate) fn walk_framed(framing: Framing, payload: &[u8]) -> Result<Walked, Refusal> {
    if payload.len() > MAX_OCTETS {
        return refuse(TOO_LONG, MAX_OCTETS);
    }
    let mut walked = Walked::default();
    let mut unread = payload;
    while let Some(&last) = unread.last() {
        let rate = match walked.rate {
            0 => framing.first_rate(),
            rate => rate,
        };
        let frame = match step(framing, unread, last, walked.frames, rate) {
            Ok(frame) => frame,
            Err(number) => return refuse(number, unread.len()),
        };
        unread = &unread[..unread.len() - frame.wire];
        walked.frames += 1;
        walked.octets += frame.kind.body_octets(frame.tc);
        walked.ticks += frame.kind.ticks;
        if frame.kind.is_coder_frame() {
            walked.rate = frame.kind.rate;
        }
    }
    Ok(walked)
}

#[inline]
pub fn walk_in(session: Session, payload: &[u8]) -> Result<Walked, Refusal> {
    walk_framed(session.framing()?, payload)
}

#[inline]
pub fn walk(payload: &[u8]) -> Result<Walked, Refusal> {
    walk_in(Session::NotAgreed, payload)
}

/// Frames, or minus the refusal's number.
pub fn count(payload: &[u8]) -> i32 {
    match walk(payload) {
        Ok(walked) => walked.frames as i32,
        Err(refusal) => -(refusal.number as i32),
    }
}

/// Fills from the end: what is lent is as long as what a walk came to.
#[inline(always)]
fn fill(framing: Framing, payload: &[u8], mut rows: &mut [u16], mut bodies: &mut [u8]) {
    let mut unread = payload;
    while let Some(&last) = unread.last() {
        let Ok(Named { kind, tc, wire }) = name(framing, unread, last) else {
            return;
        };
        let (front, frame) = unread.split_at(unread.len() - wire);
        let (other_rows, row) = rows.split_at_mut(rows.len() - 2);
        let (other_bodies, body) = bodies.split_at_mut(bodies.len() - kind.body_octets(tc));
        row[0] = kind.number;
        row[1] = tc;
        body.copy_from_slice(&frame[..body.len()]);
        body[kind.base - 1] -= kind.code;
        (unread, rows, bodies) = (front, other_rows, other_bodies);
    }
}

#[inline]
pub fn read(payload: &[u8], rows: &mut [u16], bodies: &mut [u8]) -> Result<Walked, Refusal> {
    read_in(Session::NotAgreed, payload, rows, bodies)
}

#[inline]
pub fn read_in(
    session: Session,
    payload: &[u8],
    rows: &mut [u16],
    bodies: &mut [u8],
) -> Result<Walked, Refusal> {
    let framing = session.framing()?;
    let walked = walk_framed(framing, payload)?;
    let Walked { frames, octets, .. } = walked;
    if rows.len() / 2 < frames {
        return refuse(NUMBERS_TOO_SHORT, frames);
    }
    let Some(filled) = bodies.get_mut(..octets) else {
        return refuse(OCTETS_TOO_SHORT, octets);
    };
    fill(framing, payload, &mut rows[..2 * frames], filled);
    Ok(walked)
}
