//! The packet record: a packet's rows with their starts on the wire.
#![forbid(unsafe_code)]

use crate::ffi;
use crate::frames::Kind;
use crate::refusal::{Call, Refusal, answer};
use crate::time::Ticks;
use core::fmt;

/// The rows of a packet, where each row's frame starts on the wire, and the octets and ticks of them
/// all. They are kept while rows are taken, dropped and replaced; nothing is added up when it is asked
/// for.
///
/// ```
/// use moult::{Kind, Reason, Record, Ticks};
/// let mut record = Record::new();
/// record.push(Kind::Rate2400, 0)?;
/// record.push(Kind::Tsvcis, 35)?;
/// record.push(Kind::ComfortNoise, 0)?;
/// assert_eq!((record.rows(), record.octets(), record.ticks()), (3, 52, Ticks(360)));
/// assert_eq!((record.row(1), record.start(2)), (Ok((Kind::Tsvcis, 35)), Ok(50)));
///
/// // The rows that would result are refused as the writer would: here for the row behind.
/// let refusal = record.replace(0, Kind::Rate600, 0).unwrap_err();
/// assert_eq!((refusal.reason, refusal.place), (Reason::RatesMixed, 1));
/// assert_eq!(record.row(0), Ok((Kind::Rate2400, 0)));
/// # Ok::<(), moult::Refusal>(())
/// ```
///
/// # Errors
///
/// The three operations refuse, in this order: `Unknown` where the row to drop or to replace is
/// missing; then what [`write()`](crate::write()) refuses of rows alone, for all rows that would
/// result: `TooLong` for more than 200 rows; row by row `Unknown`, `WrongTc`, `ComfortNoiseNotLast`,
/// `RatesMixed`; `TooLong` for the octets. A refused operation changes nothing.
#[derive(Clone, PartialEq, Eq)]
pub struct Record(ffi::Record);

impl Record {
    /// The record of no rows.
    pub fn new() -> Record {
        Record(ffi::record_empty())
    }

    /// Takes a row at the end.
    ///
    /// # Errors
    ///
    /// See [`Record`].
    pub fn push(&mut self, kind: Kind, tc: u16) -> Result<(), Refusal> {
        let change = ffi::record_push(self.0, kind.number(), tc);
        self.take(Call::RecordChange, change)
    }

    /// Drops the last row.
    ///
    /// ```
    /// let mut record = moult::Record::new();
    /// let refusal = record.pop().unwrap_err();
    /// assert_eq!((refusal.reason, refusal.place), (moult::Reason::Unknown, 0));
    /// ```
    ///
    /// # Errors
    ///
    /// See [`Record`].
    pub fn pop(&mut self) -> Result<(), Refusal> {
        let change = ffi::record_pop(self.0);
        self.take(Call::RecordRow, change)
    }

    /// Puts a row in place of another one.
    ///
    /// # Errors
    ///
    /// See [`Record`].
    pub fn replace(&mut self, row: usize, kind: Kind, tc: u16) -> Result<(), Refusal> {
        let call = if row < self.rows() {
            Call::RecordChange
        } else {
            Call::RecordRow
        };
        let change = ffi::record_replace(self.0, row, kind.number(), tc);
        self.take(call, change)
    }

    /// The record behind an operation; it is the same where that was refused.
    fn take(&mut self, call: Call, change: ffi::RecordChange) -> Result<(), Refusal> {
        self.0 = change.record;
        answer(call, change.number, change.place, ())
    }

    /// How many rows there are.
    pub fn rows(&self) -> usize {
        ffi::record_rows(self.0)
    }

    /// Kind and TC of a row, from 0.
    ///
    /// # Errors
    ///
    /// `Unknown` where it is missing.
    pub fn row(&self, row: usize) -> Result<(Kind, u16), Refusal> {
        let found = ffi::record_row(self.0, row);
        let values = (found.kind.into(), found.tc);
        answer(Call::RecordRow, found.number, found.place, values)
    }

    /// Where the frame of a row, from 0, starts on the wire, in octets from the payload's start.
    ///
    /// # Errors
    ///
    /// `Unknown` where it is missing.
    pub fn start(&self, row: usize) -> Result<usize, Refusal> {
        let found = ffi::record_start(self.0, row);
        answer(Call::RecordRow, found.number, found.place, found.start)
    }

    /// The octets of all frames on the wire.
    pub fn octets(&self) -> usize {
        ffi::record_octets(self.0)
    }

    /// How long the coder frames last.
    pub fn ticks(&self) -> Ticks {
        Ticks(ffi::record_ticks(self.0) as usize)
    }
}

impl Default for Record {
    fn default() -> Record {
        Record::new()
    }
}

/// Its rows as kind, TC and start.
impl fmt::Debug for Record {
    fn fmt(&self, f: &mut fmt::Formatter<'_>) -> fmt::Result {
        let rows = self.0.numbers.chunks_exact(2).zip(&self.0.starts);
        let rows = rows.map(|(row, start)| (Kind::from(row[0]), row[1], *start));
        f.write_str("Record ")?;
        f.debug_list().entries(rows.take(self.rows())).finish()
    }
}
