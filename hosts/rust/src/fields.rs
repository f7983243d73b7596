//! 600 bps fields in modes 1 to 3 (RFC 8130).
#![forbid(unsafe_code)]

use crate::ffi;
use crate::refusal::{Call, Refusal, answer};

/// Unpacks a 600 bps body of 7 octets into the fields of the mode, and gives their number:
/// 11 in mode 1, 10 in modes 2 and 3. [`MAX_FIELDS`](crate::MAX_FIELDS) numbers are enough.
///
/// ```
/// let mut fields = [0; 11];
/// assert_eq!(moult::unpack(1, &[1, 0, 0, 0, 0, 0, 0], &mut fields), Ok(11));
/// assert_eq!(fields[0], 16); // Voicing: its highest bit is B_01
/// ```
///
/// # Errors
///
/// In this order: `WrongMode`, `WrongLength` of the body, `ReservedBits`, `NumbersTooShort`.
pub fn unpack(mode: u8, body: &[u8], fields: &mut [u16]) -> Result<usize, Refusal> {
    let writing = ffi::unpack(mode, body, fields);
    answer(Call::Unpack, writing.number, writing.place, writing.octets)
}

/// Packs exactly the fields of the mode into a body, and gives its 7 octets.
///
/// ```
/// let mut body = [0; 7];
/// assert_eq!(moult::pack(1, &[0, 0, 0, 0, 0, 0, 0, 0, 0, 0, 1], &mut body), Ok(7));
/// assert_eq!(body, [0, 0, 0, 0, 0, 0, 0x20]);
///
/// let refusal = moult::pack(2, &[32, 0, 0, 0, 0, 0, 0, 0, 0, 0], &mut body).unwrap_err();
/// assert_eq!(refusal.to_string(), "refusal 17: field too large, at field 0 (from 0)");
/// ```
///
/// # Errors
///
/// In this order: `WrongMode`, `WrongLength` of the list, `FieldTooLarge`, `OctetsTooShort`.
pub fn pack(mode: u8, fields: &[u16], out: &mut [u8]) -> Result<usize, Refusal> {
    let writing = ffi::pack(mode, fields, out);
    answer(Call::Pack, writing.number, writing.place, writing.octets)
}
