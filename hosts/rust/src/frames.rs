//! The frames that rows and bodies describe.
#![forbid(unsafe_code)]

use crate::ffi;
use crate::numbered::numbered;
use core::error::Error;
use core::fmt;
use core::iter::FusedIterator;

numbered! {
    /// The kind of a frame, the first number of its row.
    ///
    /// ```
    /// use moult::Kind;
    /// assert_eq!((Kind::from(5), Kind::Tsvcis.number()), (Kind::Tsvcis, 5));
    /// assert_eq!(Kind::Tsvcis.to_string(), "TSVCIS");
    /// assert_eq!(Kind::from(99), Kind::Other(99));
    /// assert_eq!(Kind::Other(99).to_string(), "kind 99");
    /// ```
    Kind: u16 {
        /// A 2400 bps frame.
        Rate2400 = 1, "2400 bps";
        /// A 1200 bps frame.
        Rate1200 = 2, "1200 bps";
        /// A 600 bps frame.
        Rate600 = 3, "600 bps";
        /// Comfort noise.
        ComfortNoise = 4, "comfort noise";
        /// A 2400 bps frame with TC octets of augmentation, which end its body. On the wire its count
        /// is short for TC 15 to 77.
        Tsvcis = 5, "TSVCIS";
        /// The same for TC 15 to 77, with a long count on the wire.
        TsvcisLong = 6, "TSVCIS with a long count";
    }
}

impl fmt::Display for Kind {
    fn fmt(&self, f: &mut fmt::Formatter<'_>) -> fmt::Result {
        match self.words() {
            Some(words) => f.pad(words),
            None => write!(f, "kind {}", self.number()),
        }
    }
}

/// The octets of the body of a row, as the library knows them; none where the kind is unknown to it
/// or the TC wrong for the kind.
///
/// ```
/// use moult::{Kind, body_octets};
/// assert_eq!(body_octets(Kind::Tsvcis, 35), Some(42));
/// assert_eq!(body_octets(Kind::TsvcisLong, 78), None);
/// assert_eq!(body_octets(Kind::Rate2400, 35), None);
/// ```
pub fn body_octets(kind: Kind, tc: u16) -> Option<usize> {
    match ffi::body_octets(kind.number(), tc) {
        0 => None,
        octets => Some(octets),
    }
}

/// A frame: its row, and its body within the lent bodies.
#[derive(Clone, Copy, Debug, PartialEq, Eq, Hash)]
#[non_exhaustive]
pub struct Frame<'a> {
    /// Its kind.
    pub kind: Kind,
    /// Octets of augmentation, 0 for kinds that have none.
    pub tc: u16,
    /// Its body, without rate code bits and count octets.
    pub body: &'a [u8],
}

/// Rows and bodies that do not fit each other, or that the library does not know. Rows count from 0.
#[derive(Clone, Copy, Debug, PartialEq, Eq, Hash)]
#[non_exhaustive]
pub enum FramesError {
    /// The library does not know the kind, or the TC is wrong for it.
    UnknownRow {
        /// Which row.
        row: usize,
        /// Its kind.
        kind: Kind,
        /// Its TC.
        tc: u16,
    },
    /// The row list ends behind a kind, without its TC.
    HalfRow {
        /// Which row.
        row: usize,
    },
    /// The bodies end within the body of a row.
    BodyCut {
        /// Which row.
        row: usize,
        /// Octets that its body needs.
        needed: usize,
        /// Octets that are there.
        left: usize,
    },
    /// Octets are left behind the last row's body.
    BodiesLeft {
        /// How many.
        left: usize,
    },
}

impl fmt::Display for FramesError {
    fn fmt(&self, f: &mut fmt::Formatter<'_>) -> fmt::Result {
        match self {
            FramesError::UnknownRow { row, kind, tc } => write!(
                f,
                "row {row} (from 0) is not known to the library: kind {} with TC {tc}",
                kind.number()
            ),
            FramesError::HalfRow { row } => write!(f, "row {row} (from 0) has a kind and no TC"),
            FramesError::BodyCut { row, needed, left } => write!(
                f,
                "the body of row {row} (from 0) needs {needed} octets and has {left}"
            ),
            FramesError::BodiesLeft { left } => {
                write!(f, "octets left behind the last body: {left}")
            }
        }
    }
}

impl Error for FramesError {}

/// The frames of rows and bodies: see [`frames`].
#[derive(Clone, Debug)]
pub struct Frames<'a> {
    rows: &'a [u16],
    bodies: &'a [u8],
    /// Rows taken.
    row: usize,
}

/// The frames that rows and bodies describe, oldest first.
///
/// Rows and bodies that an accepted [`read`](crate::read) reports give all their frames, those of a
/// [`Kind::Other`] too: the library that read them knows how long their bodies are. Where other ones
/// do not fit each other, the last item is the error.
///
/// ```
/// use moult::{FramesError, Kind};
/// let all: Result<Vec<_>, _> = moult::frames(&[1, 0, 5, 1], &[0; 15]).collect();
/// assert_eq!(all.unwrap()[1].body, [0; 8]);
/// let mut frames = moult::frames(&[1, 0, 99, 0], &[0; 15]);
/// assert_eq!(frames.next().unwrap().unwrap().kind, Kind::Rate2400);
/// let unknown = FramesError::UnknownRow { row: 1, kind: Kind::Other(99), tc: 0 };
/// assert_eq!(frames.next(), Some(Err(unknown)));
/// assert_eq!(frames.next(), None);
/// ```
pub fn frames<'a>(rows: &'a [u16], bodies: &'a [u8]) -> Frames<'a> {
    Frames {
        rows,
        bodies,
        row: 0,
    }
}

impl<'a> Frames<'a> {
    /// The next frame, if there is one, where `octets` gives the length of a row's body.
    fn step(
        &mut self,
        octets: impl Fn(Kind, u16) -> Option<usize>,
    ) -> Result<Option<Frame<'a>>, FramesError> {
        let row = self.row;
        let (kind, tc, rows) = match *self.rows {
            [kind, tc, ref rows @ ..] => (Kind::from(kind), tc, rows),
            [_] => return Err(FramesError::HalfRow { row }),
            [] if self.bodies.is_empty() => return Ok(None),
            [] => {
                let left = self.bodies.len();
                return Err(FramesError::BodiesLeft { left });
            }
        };
        let Some(needed) = octets(kind, tc) else {
            return Err(FramesError::UnknownRow { row, kind, tc });
        };
        let Some((body, bodies)) = self.bodies.split_at_checked(needed) else {
            let left = self.bodies.len();
            return Err(FramesError::BodyCut { row, needed, left });
        };
        *self = Frames {
            rows,
            bodies,
            row: row + 1,
        };
        Ok(Some(Frame { kind, tc, body }))
    }
}

impl<'a> Iterator for Frames<'a> {
    type Item = Result<Frame<'a>, FramesError>;

    fn next(&mut self) -> Option<Self::Item> {
        let next = self.step(body_octets);
        if next.is_err() {
            *self = frames(&[], &[]);
        }
        next.transpose()
    }
}

impl FusedIterator for Frames<'_> {}

#[cfg(test)]
mod tests {
    use super::*;

    /// As a library that has a kind 99, with bodies of 3 octets, would tell it.
    fn newer(kind: Kind, tc: u16) -> Option<usize> {
        match (kind, tc) {
            (Kind::Other(99), 2) => Some(3),
            (kind, tc) => body_octets(kind, tc),
        }
    }

    fn all<'a>(mut frames: Frames<'a>, into: &mut [Option<Frame<'a>>]) -> Option<FramesError> {
        for place in into {
            match frames.step(newer) {
                Ok(frame) => *place = frame,
                Err(error) => return Some(error),
            }
        }
        None
    }

    #[test]
    fn a_kind_that_only_the_library_knows() {
        let bodies = [1, 2, 3, 4, 5, 6, 7, 8, 9, 10, 11, 12];
        let mut found = [None; 4];
        let error = all(frames(&[1, 0, 99, 2, 4, 0], &bodies), &mut found);
        assert_eq!((error, found[3]), (None, None));
        let parts = found.map(|frame| frame.map(|frame| (frame.kind, frame.tc, frame.body)));
        assert_eq!(parts[0], Some((Kind::Rate2400, 0, &bodies[..7])));
        assert_eq!(parts[1], Some((Kind::Other(99), 2, &bodies[7..10])));
        assert_eq!(parts[2], Some((Kind::ComfortNoise, 0, &bodies[10..])));
    }

    #[test]
    fn what_does_not_fit_is_told_once() {
        let cases: [(&[u16], usize, FramesError); 5] = [
            (
                &[99, 3],
                9,
                FramesError::UnknownRow {
                    row: 0,
                    kind: Kind::Other(99),
                    tc: 3,
                },
            ),
            (
                &[4, 0, 1, 1],
                9,
                FramesError::UnknownRow {
                    row: 1,
                    kind: Kind::Rate2400,
                    tc: 1,
                },
            ),
            (&[4, 0, 4], 4, FramesError::HalfRow { row: 1 }),
            (
                &[4, 0, 1, 0],
                8,
                FramesError::BodyCut {
                    row: 1,
                    needed: 7,
                    left: 6,
                },
            ),
            (&[4, 0], 5, FramesError::BodiesLeft { left: 3 }),
        ];
        for (rows, octets, error) in cases {
            let bodies = &[0; 9][..octets];
            let mut frames = frames(rows, bodies);
            let last = frames.by_ref().find(Result::is_err);
            assert_eq!(last, Some(Err(error)));
            assert_eq!(frames.next(), None);
        }
    }
}
