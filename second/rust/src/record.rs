//! The packet record ("Packet record"): a row list. What is asked of it is worked out afresh from the
//! rows each time.

use crate::kinds::Kind;
use crate::refusal::{Refusal, UNKNOWN, refuse};
use crate::writer;

/// The numbers of the rows, kind and TC in turn.
#[derive(Clone, Debug, Default, PartialEq, Eq)]
pub struct Record(Vec<u16>);

impl Record {
    /// The record of a row list, if its rows may stand in one payload.
    pub fn of(numbers: &[u16]) -> Result<Record, Refusal> {
        writer::check_rows(numbers)?;
        Ok(Record(numbers.to_vec()))
    }

    /// The rows in place of these, if they may stand in one payload.
    fn change(&mut self, numbers: &[u16]) -> Result<(), Refusal> {
        *self = Record::of(numbers)?;
        Ok(())
    }

    pub fn push(&mut self, kind: u16, tc: u16) -> Result<(), Refusal> {
        self.change(&[&self.0[..], &[kind, tc]].concat())
    }

    pub fn pop(&mut self) -> Result<(), Refusal> {
        match self.0.clone().as_slice() {
            [others @ .., _, _] => self.change(others),
            _ => refuse(UNKNOWN, 0),
        }
    }

    pub fn replace(&mut self, row: usize, kind: u16, tc: u16) -> Result<(), Refusal> {
        self.row(row)?;
        let mut numbers = self.0.clone();
        numbers[2 * row..2 * row + 2].copy_from_slice(&[kind, tc]);
        self.change(&numbers)
    }

    /// Kind and TC of each row.
    fn kinds(&self) -> impl Iterator<Item = (Kind, u16)> {
        let rows = self.0.chunks_exact(2);
        rows.map_while(|row| Some((Kind::of(row[0])?, row[1])))
    }

    pub fn numbers(&self) -> &[u16] {
        &self.0
    }

    pub fn rows(&self) -> usize {
        self.0.len() / 2
    }

    pub fn row(&self, row: usize) -> Result<[u16; 2], Refusal> {
        match self.0.chunks_exact(2).nth(row) {
            Some(numbers) => Ok([numbers[0], numbers[1]]),
            None => refuse(UNKNOWN, 0),
        }
    }

    /// Where the frame of each row starts on the wire: behind the octets of those before it.
    pub fn starts(&self) -> impl Iterator<Item = usize> {
        self.kinds().scan(0, |end, (kind, tc)| {
            let start = *end;
            *end += kind.wire_octets(tc);
            Some(start)
        })
    }

    pub fn start(&self, row: usize) -> Result<usize, Refusal> {
        self.starts().nth(row).map_or(refuse(UNKNOWN, 0), Ok)
    }

    /// On the wire.
    pub fn octets(&self) -> usize {
        self.kinds().map(|(kind, tc)| kind.wire_octets(tc)).sum()
    }

    pub fn ticks(&self) -> usize {
        self.kinds().map(|(kind, _)| kind.ticks).sum()
    }
}
