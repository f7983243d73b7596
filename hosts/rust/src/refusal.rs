//! Why something is refused, and where.
#![forbid(unsafe_code)]

use crate::numbered::numbered;
use core::error::Error;
use core::fmt;

numbered! {
    /// Why something is refused.
    ///
    /// "Unread" is the number of octets from the payload's start up to the end of the refused frame:
    /// payloads are read from the last frame to the first.
    ///
    /// ```
    /// use moult::Reason;
    /// assert_eq!(Reason::from(2), Reason::FrameCut);
    /// assert_eq!(Reason::FrameCut.to_string(), "refusal 2: frame cut at the front");
    /// assert_eq!(Reason::from(99), Reason::Other(99));
    /// assert_eq!(Reason::Other(99).to_string(), "refusal 99");
    /// ```
    Reason: u32 {
        /// More than 1,400 octets or, in writer and record, more than 200 rows. Place: 1400; journal
        /// reader: where the entry begins, from 0.
        TooLong = 1, "too long";
        /// A frame is cut at the front. Place: unread.
        FrameCut = 2, "frame cut at the front";
        /// Reserved or foreign bits are set. Place: unread; writer: index in the lent bodies, counted
        /// from their start; fields: index in the body.
        ReservedBits = 3, "reserved or foreign bits set";
        /// A long count is 0. Place: unread.
        LongCountZero = 4, "long count is 0";
        /// No longer given: a long count of 15 to 77 makes a
        /// [`Kind::TsvcisLong`](crate::Kind::TsvcisLong).
        LongCountShortRange = 5, "long count of 15 to 77";
        /// Comfort noise is not last. Place: unread; writer and record: row, from 0.
        ComfortNoiseNotLast = 6, "comfort noise not last";
        /// Augmentation is not behind a 2400 bps frame. Place: unread.
        AugmentationNot2400 = 7, "augmentation not behind a 2400 bps frame";
        /// Coder frames are of several rates, or not of the agreed one. Place: unread; writer and
        /// record: row, from 0.
        RatesMixed = 8, "rates mixed";
        /// The number list is too short. Place: rows needed, or fields needed.
        NumbersTooShort = 9, "number list too short";
        /// The octet buffer is too short. Place: octets needed.
        OctetsTooShort = 10, "octet buffer too short";
        /// The row list has an odd length. Place: that length.
        OddRows = 11, "odd row list";
        /// The kind, rate, row or number of frames is unknown. Place: of a kind, in writer and record:
        /// row, from 0; else, also for the agreed rate of a session and for a row that a record does
        /// not have, 0.
        Unknown = 12, "unknown kind, rate, row or number of frames";
        /// The TC is wrong for the kind. Place: row, from 0.
        WrongTc = 13, "TC wrong for the kind";
        /// A length is wrong. Place: length needed.
        WrongLength = 14, "length wrong";
        /// The setting text or the settings are wrong. Place: 0.
        WrongSettings = 15, "setting text or settings wrong";
        /// The mode of the fields is unknown. Place: 0.
        WrongMode = 16, "mode not 1 to 3";
        /// A field is too large for its width. Place: field, from 0.
        FieldTooLarge = 17, "field too large";
        /// A number of a journal's entry is not below 2^32 or not in its shortest form. Place: where
        /// the entry begins, from 0; journal writer: 0.
        BadNumber = 18, "bad number";
        /// A journal ends within an entry. Place: where the entry begins, from 0.
        EntryCut = 19, "entry cut short";
    }
}

impl fmt::Display for Reason {
    fn fmt(&self, f: &mut fmt::Formatter<'_>) -> fmt::Result {
        write!(f, "refusal {}", self.number())?;
        match self.words() {
            Some(words) => write!(f, ": {words}"),
            None => Ok(()),
        }
    }
}

impl Error for Reason {}

/// The call that refused. It and the reason say what the place counts.
#[derive(Clone, Copy, Debug, PartialEq, Eq, Hash)]
#[non_exhaustive]
pub enum Call {
    /// [`read`](crate::read) or [`read_in`](crate::read_in).
    Read,
    /// [`write`](crate::write) or [`write_in`](crate::write_in).
    Write,
    /// [`packet_ticks`](crate::packet_ticks) or [`packet_ticks_in`](crate::packet_ticks_in).
    PacketTicks,
    /// [`ptime`](crate::ptime).
    Ptime,
    /// [`Settings::read`](crate::Settings::read).
    SettingsRead,
    /// [`Settings::new`](crate::Settings::new) or [`Settings::write`](crate::Settings::write).
    SettingsWrite,
    /// [`unpack`](crate::unpack).
    Unpack,
    /// [`pack`](crate::pack).
    Pack,
    /// [`journal::entries`](crate::journal::entries).
    JournalRead,
    /// [`journal::write_entry`](crate::journal::write_entry).
    JournalWrite,
    /// [`Record::push`](crate::Record::push), or [`Record::replace`](crate::Record::replace) of a row
    /// that the record has.
    RecordChange,
    /// Any other call of a [`Record`](crate::Record): its row is missing.
    RecordRow,
    /// Any call that takes a [`Session`](crate::Session), whose agreed rate was refused.
    Session,
}

/// A refusal: why, and where or how much.
///
/// ```
/// let refusal = moult::write(&[1, 0, 3, 0], &[0; 14], &mut [0; 14]).unwrap_err();
/// assert_eq!((refusal.reason, refusal.place), (moult::Reason::RatesMixed, 1));
/// assert_eq!(refusal.to_string(), "refusal 8: rates mixed, at row 1 (from 0)");
/// ```
#[derive(Clone, Copy, Debug, PartialEq, Eq, Hash)]
#[non_exhaustive]
pub struct Refusal {
    /// Why.
    pub reason: Reason,
    /// Where, or how much is needed: see [`Reason`].
    pub place: usize,
    /// Which call refused.
    pub call: Call,
}

impl Refusal {
    /// The words before and behind the place, which say what it counts; none where it says nothing.
    fn around_place(self) -> Option<(&'static str, &'static str)> {
        Some(match (self.reason, self.call) {
            (Reason::TooLong | Reason::BadNumber | Reason::EntryCut, Call::JournalRead) => (
                "in the entry that begins at octet ",
                " of the journal (from 0)",
            ),
            (Reason::TooLong, Call::Write | Call::RecordChange) => {
                ("at most 200 rows and ", " octets are allowed")
            }
            (Reason::TooLong, _) => ("at most ", " octets are allowed"),
            (Reason::ReservedBits, Call::Write) => ("at octet ", " of the bodies (from 0)"),
            (Reason::ReservedBits, Call::Unpack) => ("at octet ", " of the body (from 0)"),
            (
                Reason::ComfortNoiseNotLast
                | Reason::RatesMixed
                | Reason::Unknown
                | Reason::WrongTc,
                Call::Write | Call::RecordChange,
            ) => ("at row ", " (from 0)"),
            (
                Reason::FrameCut
                | Reason::ReservedBits
                | Reason::LongCountZero
                | Reason::LongCountShortRange
                | Reason::ComfortNoiseNotLast
                | Reason::AugmentationNot2400
                | Reason::RatesMixed,
                Call::Read | Call::PacketTicks,
            ) => ("payload octets up to that frame's end: ", ""),
            (Reason::NumbersTooShort, Call::Read) => ("rows needed: ", ""),
            (Reason::NumbersTooShort, Call::Unpack) => ("fields needed: ", ""),
            (Reason::OctetsTooShort, _) => ("octets needed: ", ""),
            (Reason::OddRows, Call::Write) => ("its length: ", ""),
            (Reason::WrongLength, Call::Write) => ("octets needed in the bodies: ", ""),
            (Reason::WrongLength, Call::Unpack) => ("octets needed in the body: ", ""),
            (Reason::WrongLength, Call::Pack) => ("fields needed: ", ""),
            (Reason::FieldTooLarge, Call::Pack) => ("at field ", " (from 0)"),
            (
                Reason::Unknown | Reason::WrongSettings | Reason::WrongMode | Reason::BadNumber,
                _,
            ) if self.place == 0 => return None,
            _ => ("place ", ""),
        })
    }
}

impl fmt::Display for Refusal {
    fn fmt(&self, f: &mut fmt::Formatter<'_>) -> fmt::Result {
        self.reason.fmt(f)?;
        match self.around_place() {
            Some((before, behind)) => write!(f, ", {before}{}{behind}", self.place),
            None => Ok(()),
        }
    }
}

impl Error for Refusal {}

/// The value where the number is 0, else the refusal.
pub(crate) fn answer<T>(call: Call, number: u32, place: usize, value: T) -> Result<T, Refusal> {
    if number == 0 {
        return Ok(value);
    }
    Err(Refusal {
        reason: number.into(),
        place,
        call,
    })
}

#[cfg(test)]
mod tests {
    extern crate std;
    use super::*;
    use std::string::ToString;

    #[test]
    fn a_number_that_only_the_library_knows() {
        let refusal = answer(Call::Read, 99, 7, ()).unwrap_err();
        assert_eq!((refusal.reason, refusal.place), (Reason::Other(99), 7));
        assert_eq!(refusal.to_string(), "refusal 99, place 7");
    }

    /// A reason that has a name, from a call that has not given it so far.
    #[test]
    fn a_reason_new_to_the_call() {
        let refusal = answer(Call::Ptime, 13, 7, ()).unwrap_err();
        assert_eq!(
            refusal.to_string(),
            "refusal 13: TC wrong for the kind, place 7"
        );
    }

    #[test]
    fn numbers_are_named_once() {
        for number in 0..=1000 {
            let reason = Reason::from(number);
            assert_eq!(reason.number(), number);
            assert_eq!(reason.words().is_some(), (1..=19).contains(&number));
        }
    }
}
