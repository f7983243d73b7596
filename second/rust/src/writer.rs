//! The writer ("Writing").

use crate::kinds::Kind;
use crate::refusal::{
    COMFORT_NOISE_NOT_LAST, OCTETS_TOO_SHORT, ODD_ROWS, RATES_MIXED, RESERVED_BITS, Refusal,
    TOO_LONG, UNKNOWN, WRONG_LENGTH, WRONG_TC, refuse,
};
use crate::session::{Framing, Session};
use crate::{MAX_FRAMES, MAX_OCTETS};

/// The kind of a row where coder frames must be of the rate, 0 for any; or the refusal's number.
fn row_kind(row: &[u16], is_last: bool, rate: u32) -> Result<Kind, u32> {
    let kind = Kind::of(row[0]).ok_or(UNKNOWN)?;
    if !kind.takes(row[1]) {
        return Err(WRONG_TC);
    }
    if !kind.is_coder_frame() && !is_last {
        return Err(COMFORT_NOISE_NOT_LAST);
    }
    if kind.is_coder_frame() && rate != 0 && rate != kind.rate {
        return Err(RATES_MIXED);
    }
    Ok(kind)
}

/// Body octets and wire octets of rows that may stand in one payload.
#[inline]
fn totals(framing: Framing, rows: &[u16]) -> Result<(usize, usize), Refusal> {
    let frames = rows.len() / 2;
    if frames > MAX_FRAMES {
        return refuse(TOO_LONG, MAX_OCTETS);
    }
    let (mut bodies, mut wire, mut rate) = (0, 0, framing.first_rate());
    for (index, row) in rows.chunks_exact(2).enumerate() {
        let kind = match row_kind(row, index + 1 == frames, rate) {
            Ok(kind) => kind,
            Err(number) => return refuse(number, index),
        };
        if kind.is_coder_frame() {
            rate = kind.rate;
        }
        bodies += kind.body_octets(row[1]);
        wire += kind.wire_octets(row[1]);
    }
    if wire > MAX_OCTETS {
        return refuse(TOO_LONG, MAX_OCTETS);
    }
    Ok((bodies, wire))
}

/// The checks of rows alone.
pub(crate) fn check_rows(rows: &[u16]) -> Result<(), Refusal> {
    totals(Framing::No, rows).map(|_| ())
}

/// Kind and TC of rows that have passed.
#[inline]
fn passed(framing: Framing, rows: &[u16]) -> impl Iterator<Item = (Kind, u16)> {
    rows.chunks_exact(2)
        .map_while(move |row| Some((framing.kind(Kind::of(row[0])?), row[1])))
}

#[inline]
fn first_bad_end(framing: Framing, rows: &[u16], bodies: &[u8]) -> Option<usize> {
    let mut at = 0;
    for (kind, tc) in passed(framing, rows) {
        let end = at + kind.base - 1;
        if bodies[end] > kind.end {
            return Some(end);
        }
        at += kind.body_octets(tc);
    }
    None
}

#[inline]
fn put(framing: Framing, rows: &[u16], mut bodies: &[u8], mut out: &mut [u8]) {
    for (kind, tc) in passed(framing, rows) {
        let (body, other_bodies) = bodies.split_at(kind.body_octets(tc));
        let (frame, other) = out.split_at_mut(kind.wire_octets(tc));
        let (whole, count) = frame.split_at_mut(body.len());
        whole.copy_from_slice(body);
        whole[kind.base - 1] += kind.code;
        match count {
            [short] => *short = 192 + (tc as u8 - 15),
            [long, mark] => (*long, *mark) = (tc as u8, 255),
            _ => {}
        }
        (bodies, out) = (other_bodies, other);
    }
}

/// Gives the octets written.
#[inline]
pub fn write(rows: &[u16], bodies: &[u8], out: &mut [u8]) -> Result<usize, Refusal> {
    write_in(Session::NotAgreed, rows, bodies, out)
}

#[inline]
pub fn write_in(
    session: Session,
    rows: &[u16],
    bodies: &[u8],
    out: &mut [u8],
) -> Result<usize, Refusal> {
    let framing = session.framing()?;
    if rows.len() % 2 == 1 {
        return refuse(ODD_ROWS, rows.len());
    }
    let (body_octets, wire_octets) = totals(framing, rows)?;
    if bodies.len() != body_octets {
        return refuse(WRONG_LENGTH, body_octets);
    }
    if let Some(index) = first_bad_end(framing, rows, bodies) {
        return refuse(RESERVED_BITS, index);
    }
    let Some(filled) = out.get_mut(..wire_octets) else {
        return refuse(OCTETS_TOO_SHORT, wire_octets);
    };
    put(framing, rows, bodies, filled);
    Ok(wire_octets)
}
