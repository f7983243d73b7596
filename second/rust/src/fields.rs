//! 600 bps fields ("Fields"): the 54 bits of a body as one number, turned round so that B_01, the
//! highest bit of the first field, is highest.

use crate::refusal::{
    FIELD_TOO_LARGE, NUMBERS_TOO_SHORT, OCTETS_TOO_SHORT, RESERVED_BITS, Refusal, WRONG_LENGTH,
    WRONG_MODE, refuse,
};

/// Octets of a 600 bps body, and its bits.
const OCTETS: usize = 7;
const BITS: u32 = 54;

/// Widths of the fields in bits, from B_01 on, of modes 1 to 3.
const MODES: [&[u32]; 3] = [
    &[5, 4, 4, 4, 6, 4, 4, 4, 6, 6, 7],
    &[5, 6, 4, 4, 6, 4, 5, 7, 6, 7],
    &[5, 8, 4, 5, 6, 4, 5, 6, 5, 6],
];

/// The widths of a mode's fields, if there is such a mode.
pub fn widths(mode: u8) -> Option<&'static [u32]> {
    MODES.get(usize::from(mode).wrapping_sub(1)).copied()
}

/// Gives the number of fields.
pub fn unpack(mode: u8, body: &[u8], fields: &mut [u16]) -> Result<usize, Refusal> {
    let Some(widths) = widths(mode) else {
        return refuse(WRONG_MODE, 0);
    };
    let Ok(&[a, b, c, d, e, f, end]) = <&[u8; OCTETS]>::try_from(body) else {
        return refuse(WRONG_LENGTH, OCTETS);
    };
    if end > 63 {
        return refuse(RESERVED_BITS, OCTETS - 1);
    }
    let Some(filled) = fields.get_mut(..widths.len()) else {
        return refuse(NUMBERS_TOO_SHORT, widths.len());
    };
    let mut bits = u64::from_le_bytes([a, b, c, d, e, f, end, 0]).reverse_bits();
    for (field, width) in filled.iter_mut().zip(widths) {
        *field = (bits >> (u64::BITS - width)) as u16;
        bits <<= width;
    }
    Ok(widths.len())
}

/// Gives the octets of the body.
pub fn pack(mode: u8, fields: &[u16], out: &mut [u8]) -> Result<usize, Refusal> {
    let Some(widths) = widths(mode) else {
        return refuse(WRONG_MODE, 0);
    };
    if fields.len() != widths.len() {
        return refuse(WRONG_LENGTH, widths.len());
    }
    let mut bits = 0;
    for (place, (field, width)) in fields.iter().zip(widths).enumerate() {
        if field >> width != 0 {
            return refuse(FIELD_TOO_LARGE, place);
        }
        bits = bits << width | u64::from(*field);
    }
    let Some(body) = out.get_mut(..OCTETS) else {
        return refuse(OCTETS_TOO_SHORT, OCTETS);
    };
    let turned = (bits << (u64::BITS - BITS)).reverse_bits();
    body.copy_from_slice(&turned.to_le_bytes()[..OCTETS]);
    Ok(OCTETS)
}
