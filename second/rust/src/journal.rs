//! The journal ("Journal"): entries one behind another, each its ticks, its source and its payload's length, in groups of seven
//! bits as in the listing, and then the payload, whatever octets that has.

use crate::MAX_OCTETS;
use crate::refusal::{BAD_NUMBER, ENTRY_CUT, OCTETS_TOO_SHORT, Refusal, TOO_LONG, refuse};
use std::ops::Range;

/// An entry, and where its payload stands in the journal. The next entry begins at the payload's end.
#[derive(Clone, Debug, PartialEq, Eq)]
pub struct Entry {
    pub ticks: u32,
    pub source: u32,
    pub payload: Range<usize>,
}

/// The number that begins at an index, low group first, and the index behind it; else the refusal's number. A group of 0 behind
/// others is needless, and a fifth has room for the four highest of 32 bits.
fn number(journal: &[u8], at: usize) -> Result<(u32, usize), u32> {
    let mut number = 0;
    for (group, &octet) in journal[at..].iter().enumerate() {
        if group > 0 && octet == 0 || group == 4 && octet > 15 {
            return Err(BAD_NUMBER);
        }
        number |= u32::from(octet & 127) << (7 * group);
        if octet < 128 {
            return Ok((number, at + group + 1));
        }
    }
    Err(ENTRY_CUT)
}

/// The entry that begins at an index, if it is a good one, else the refusal's number.
fn entry(journal: &[u8], at: usize) -> Result<Entry, u32> {
    let (ticks, at) = number(journal, at)?;
    let (source, at) = number(journal, at)?;
    let (length, start) = number(journal, at)?;
    let length = length as usize;
    if length > MAX_OCTETS {
        return Err(TOO_LONG);
    }
    if journal.len() - start < length {
        return Err(ENTRY_CUT);
    }
    Ok(Entry {
        ticks,
        source,
        payload: start..start + length,
    })
}

/// The entry that begins at an index; none at the journal's end and beyond.
pub fn entry_at(journal: &[u8], at: usize) -> Result<Option<Entry>, Refusal> {
    if at >= journal.len() {
        return Ok(None);
    }
    match entry(journal, at) {
        Ok(entry) => Ok(Some(entry)),
        Err(number) => refuse(number, at),
    }
}

/// All entries up to the journal's end or its first refusal, and this.
pub fn read(journal: &[u8]) -> (Vec<Entry>, Result<(), Refusal>) {
    let mut entries = vec![];
    let mut at = 0;
    loop {
        match entry_at(journal, at) {
            Ok(Some(entry)) => {
                at = entry.payload.end;
                entries.push(entry);
            }
            Ok(None) => return (entries, Ok(())),
            Err(refusal) => return (entries, Err(refusal)),
        }
    }
}

/// Groups of a number in its shortest form: 0 has one, too.
fn groups(number: u32) -> usize {
    let bits = u32::BITS - (number | 1).leading_zeros();
    bits.div_ceil(7) as usize
}

/// Writes a number and gives the octets behind it.
fn put(mut number: u32, out: &mut [u8]) -> &mut [u8] {
    let (own, behind) = out.split_at_mut(groups(number));
    for octet in own {
        let more = if number < 128 { 0 } else { 128 };
        *octet = (number % 128) as u8 + more;
        number /= 128;
    }
    behind
}

/// Writes one entry and gives its octets.
pub fn write_entry(
    ticks: u64,
    source: u64,
    payload: &[u8],
    out: &mut [u8],
) -> Result<usize, Refusal> {
    let (Ok(ticks), Ok(source)) = (u32::try_from(ticks), u32::try_from(source)) else {
        return refuse(BAD_NUMBER, 0);
    };
    if payload.len() > MAX_OCTETS {
        return refuse(TOO_LONG, MAX_OCTETS);
    }
    let numbers = [ticks, source, payload.len() as u32];
    let needed = numbers.map(groups).iter().sum::<usize>() + payload.len();
    let Some(out) = out.get_mut(..needed) else {
        return refuse(OCTETS_TOO_SHORT, needed);
    };
    let behind = numbers.iter().fold(out, |out, number| put(*number, out));
    behind.copy_from_slice(payload);
    Ok(needed)
}
