//! The journal: payloads one behind another, each with its source and the ticks since the one before.
//!
//! What is journalled need not be a payload that [`read`](crate::read) accepts.
//!
//! ```
//! use moult::journal;
//! let mut octets = [0; 2 * moult::MAX_ENTRY];
//! let first = journal::write_entry(0, 7, &[0x00, 0xA0], &mut octets)?;
//! let second = journal::write_entry(180, 300, b"", &mut octets[first..])?;
//! let written = &octets[..first + second];
//! assert_eq!(written, [0, 7, 2, 0x00, 0xA0, 0xB4, 0x01, 0xAC, 0x02, 0]);
//!
//! for entry in journal::entries(written) {
//!     let entry = entry?;
//!     println!("{} ticks, source {}: {:?}", entry.ticks, entry.source, entry.payload);
//! }
//! # Ok::<(), moult::Refusal>(())
//! ```
#![forbid(unsafe_code)]

use crate::ffi;
use crate::refusal::{Call, Refusal, answer};
use core::iter::FusedIterator;

/// An entry of a journal.
#[derive(Clone, Copy, Debug, PartialEq, Eq, Hash)]
pub struct Entry<'a> {
    /// Ticks since the entry before.
    pub ticks: u32,
    /// The source's number.
    pub source: u32,
    /// The payload, of at most [`MAX_OCTETS`](crate::MAX_OCTETS), within the journal.
    pub payload: &'a [u8],
}

/// The entries of a journal: see [`entries`].
#[derive(Clone, Debug)]
pub struct Entries<'a> {
    journal: &'a [u8],
    /// Where the next entry begins.
    at: usize,
    /// Whether the refusal has been given.
    refused: bool,
}

/// The entries of a journal, the oldest first. Where one is refused the last item is the refusal, and
/// what came before it stands.
///
/// ```
/// use moult::{Reason, journal};
/// let mut entries = journal::entries(&[5, 7, 1, 0xAA, 5, 7, 2, 0xAA]);
/// let first = entries.next().unwrap().unwrap();
/// assert_eq!((first.ticks, first.source, first.payload), (5, 7, &[0xAA][..]));
/// let refusal = entries.next().unwrap().unwrap_err();
/// assert_eq!((refusal.reason, refusal.place), (Reason::EntryCut, 4));
/// assert_eq!(entries.next(), None);
/// ```
///
/// # Errors
///
/// In this order: `BadNumber` or `EntryCut`, number by number; `TooLong` for the length; `EntryCut`
/// in the payload. The place is where the refused entry begins.
pub fn entries(journal: &[u8]) -> Entries<'_> {
    Entries {
        journal,
        at: 0,
        refused: false,
    }
}

impl<'a> Entries<'a> {
    /// The next entry, if there is one.
    fn step(&mut self) -> Result<Option<Entry<'a>>, Refusal> {
        let found = ffi::journal_entry_at(self.journal, self.at);
        answer(Call::JournalRead, found.number, found.place, ())?;
        if found.entries == 0 {
            return Ok(None);
        }
        self.at = found.next;
        // Both numbers are below 2^32.
        Ok(Some(Entry {
            ticks: found.ticks as u32,
            source: found.source as u32,
            payload: &self.journal[found.start..found.next],
        }))
    }
}

impl<'a> Iterator for Entries<'a> {
    type Item = Result<Entry<'a>, Refusal>;

    fn next(&mut self) -> Option<Self::Item> {
        if self.refused {
            return None;
        }
        let next = self.step();
        self.refused = next.is_err();
        next.transpose()
    }
}

impl FusedIterator for Entries<'_> {}

/// Writes one entry into `out` and gives its octets; the next entry goes behind them.
/// [`MAX_ENTRY`](crate::MAX_ENTRY) octets are enough for any.
///
/// ```
/// use moult::{Reason, journal};
/// let mut out = [0; 4];
/// assert_eq!(journal::write_entry(127, 128, &[], &mut out), Ok(4));
/// assert_eq!(out, [0x7F, 0x80, 0x01, 0]);
///
/// let refusal = journal::write_entry(1 << 32, 0, &[], &mut out).unwrap_err();
/// assert_eq!((refusal.reason, refusal.place), (Reason::BadNumber, 0));
/// ```
///
/// # Errors
///
/// In this order: `BadNumber` for ticks or a source of 2^32 and more, `TooLong` of the payload,
/// `OctetsTooShort`.
pub fn write_entry(
    ticks: u64,
    source: u64,
    payload: &[u8],
    out: &mut [u8],
) -> Result<usize, Refusal> {
    let writing = ffi::journal_write_entry(ticks, source, payload, out);
    answer(
        Call::JournalWrite,
        writing.number,
        writing.place,
        writing.octets,
    )
}
