//! Each function called twice: through the safe wrapper and then through the C ABI, whose answer is
//! handed back field by field. The two must say the same, and write the same. The wrapper is lent
//! copies: on the same memory one call could undo what the other should not have changed. A function
//! that takes a session is called without one, too, where framing is not agreed.

use crate::guard::Lent;
use crate::raw;
use moult::{Kind, Reason, Refusal, Settings, Shown};
use second::Session;
use std::fmt::Debug;
use std::ptr;

/// Number, place and values of an answer.
pub type Answer<T> = (u32, usize, T);

/// Rows, body octets, rate (0 for none) and ticks of a reading.
pub type Read = (usize, usize, u32, usize);

/// A part: whether it is of the stand-in, start and length.
pub type Part = (u32, usize, usize);

/// What stands at an index of a journal; all 0 where there is no entry.
#[derive(Clone, Debug, Default, PartialEq)]
pub struct Entry {
    pub entries: u32,
    pub ticks: u64,
    pub source: u64,
    pub start: usize,
    pub next: usize,
}

/// The answer for an index of a journal.
pub type Found = Answer<Entry>;

/// A session as the wrapper has it.
fn wrapped(session: Session) -> moult::Session {
    match session {
        Session::NotAgreed => moult::Session::NotAgreed,
        Session::Agreed(rate) => moult::Session::Agreed(rate),
    }
}

/// The same as the C interface takes it: no rate is looked at where framing is not agreed, and any
/// number but 0 says that it is. The lengths lent, which vary, choose among them.
fn numbers(session: Session, lent: &Lent<u8>) -> raw::Session {
    let some = lent.shared().len() % 6;
    match session {
        Session::NotAgreed => [0, [0, 600, 1200, 2400, 2401, u32::MAX][some]],
        Session::Agreed(rate) => [[1, 2, 1 << 8, 1 << 16, 1 << 31, u32::MAX][some], rate],
    }
}

/// The raw answer; the wrapper keeps its values where accepted, its place where refused.
#[track_caller]
fn alike<T: PartialEq + Debug>(raw: Answer<T>, safe: Result<T, Refusal>) -> Answer<T> {
    match &safe {
        Ok(values) => assert_eq!((raw.0, &raw.2), (0, values), "the wrapper's values"),
        Err(refusal) => assert_eq!(
            (raw.0, raw.1),
            (refusal.reason.number(), refusal.place),
            "the wrapper's refusal"
        ),
    }
    raw
}

/// Both calls of a function that fills one buffer.
#[track_caller]
fn writing<T: Copy + PartialEq + Debug>(
    out: &mut Lent<T>,
    raw: impl FnOnce(&mut [T]) -> raw::Writing,
    safe: impl FnOnce(&mut [T]) -> Result<usize, Refusal>,
) -> Answer<usize> {
    let mut copied = out.clone();
    let safe = safe(copied.part());
    let raw = raw(out.part());
    assert_eq!(copied, *out, "the wrapper's buffer");
    alike((raw.number, raw.place, raw.octets), safe)
}

pub fn count(payload: &Lent<u8>) -> i32 {
    let safe = match moult::count(payload.clone().shared()) {
        Ok(frames) => frames as i32,
        Err(reason) => -(reason.number() as i32),
    };
    let counted = raw::count(payload.shared());
    assert_eq!(counted, safe, "the wrapper's count");
    counted
}

pub fn read(
    session: Session,
    payload: &Lent<u8>,
    rows: &mut Lent<u16>,
    bodies: &mut Lent<u8>,
) -> Answer<Read> {
    let mut copied = (rows.clone(), bodies.clone());
    let in_session = numbers(session, payload);
    let answer = read_both(
        (rows, bodies),
        |rows, bodies| raw::read_session(in_session, payload.shared(), rows, bodies),
        |rows, bodies| moult::read_in(wrapped(session), payload.clone().shared(), rows, bodies),
    );
    if session == Session::NotAgreed {
        let without = read_both(
            (&mut copied.0, &mut copied.1),
            |rows, bodies| raw::read(payload.shared(), rows, bodies),
            |rows, bodies| moult::read(payload.clone().shared(), rows, bodies),
        );
        assert_eq!(without, answer, "without a session");
        assert_eq!(
            (&copied.0, &copied.1),
            (&*rows, &*bodies),
            "without a session"
        );
    }
    answer
}

/// Both calls of a function that reads.
fn read_both(
    (rows, bodies): (&mut Lent<u16>, &mut Lent<u8>),
    raw: impl FnOnce(&mut [u16], &mut [u8]) -> raw::Reading,
    safe: impl FnOnce(&mut [u16], &mut [u8]) -> Result<moult::Reading, Refusal>,
) -> Answer<Read> {
    let mut copied = (rows.clone(), bodies.clone());
    let safe = safe(copied.0.part(), copied.1.part());
    if let Ok(reading) = &safe {
        frames(reading, copied.0.shared(), copied.1.shared());
    }
    let safe = safe.map(|read| (read.rows, read.octets, read.rate.unwrap_or(0), read.ticks.0));
    let raw = raw(rows.part(), bodies.part());
    assert_eq!(copied.0, *rows, "the wrapper's rows");
    assert_eq!(copied.1, *bodies, "the wrapper's bodies");
    let values = (raw.rows, raw.octets, raw.rate, raw.ticks);
    alike((raw.number, raw.place, values), safe)
}

/// The wrapper's frames are all rows with all bodies.
fn frames(reading: &moult::Reading, rows: &[u16], bodies: &[u8]) {
    let mut rest = (&rows[..2 * reading.rows], &bodies[..reading.octets]);
    for frame in reading.frames(rows, bodies) {
        let frame = frame.expect("what was read has frames");
        assert_eq!(rest.0[..2], [frame.kind.number(), frame.tc], "a row");
        assert!(ptr::eq(&rest.1[..frame.body.len()], frame.body), "a body");
        rest = (&rest.0[2..], &rest.1[frame.body.len()..]);
    }
    assert!(rest.0.is_empty() && rest.1.is_empty(), "frames left out");
}

pub fn body_octets(kind: u16, tc: u16) -> usize {
    let raw = raw::body_octets(kind, tc);
    let safe = moult::body_octets(Kind::from(kind), tc);
    assert_eq!(safe, Some(raw).filter(|octets| *octets != 0));
    raw
}

pub fn write(
    session: Session,
    rows: &Lent<u16>,
    bodies: &Lent<u8>,
    out: &mut Lent<u8>,
) -> Answer<usize> {
    let mut copied = out.clone();
    let in_session = numbers(session, bodies);
    let lent = || (rows.clone(), bodies.clone());
    let answer = writing(
        out,
        |out| raw::write_session(in_session, rows.shared(), bodies.shared(), out),
        |out| moult::write_in(wrapped(session), lent().0.shared(), lent().1.shared(), out),
    );
    if session == Session::NotAgreed {
        let without = writing(
            &mut copied,
            |out| raw::write(rows.shared(), bodies.shared(), out),
            |out| moult::write(lent().0.shared(), lent().1.shared(), out),
        );
        assert_eq!((without, &copied), (answer, &*out), "without a session");
    }
    answer
}

pub fn packet_ticks(session: Session, payload: &Lent<u8>) -> Answer<usize> {
    let both = |raw: raw::Ticks, safe: Result<moult::Ticks, Refusal>| {
        alike(
            (raw.number, raw.place, raw.ticks),
            safe.map(|ticks| ticks.0),
        )
    };
    let copied = payload.clone();
    let answer = both(
        raw::packet_ticks_session(numbers(session, payload), payload.shared()),
        moult::packet_ticks_in(wrapped(session), copied.shared()),
    );
    if session == Session::NotAgreed {
        let without = both(
            raw::packet_ticks(payload.shared()),
            moult::packet_ticks(copied.shared()),
        );
        assert_eq!(without, answer, "without a session");
    }
    answer
}

pub fn ptime(rate: u32, frames: usize) -> Answer<usize> {
    let raw = raw::ptime(rate, frames);
    let safe = moult::ptime(rate, frames).map(|millis| millis.0);
    alike((raw.number, raw.place, raw.millis), safe)
}

/// Compares where the wrapper's part stands in its buffer, not what it holds.
fn part(raw: raw::Part, buffer: &[u8], safe: &[u8]) -> Part {
    let same = &buffer[raw.start..][..raw.length];
    assert!(ptr::eq(same, safe), "the wrapper's part");
    (raw.stand_in, raw.start, raw.length)
}

pub fn augmentation(session: Session, payload: &Lent<u8>, row: usize) -> Part {
    let copied = payload.clone();
    let safe = moult::augmentation_in(wrapped(session), copied.shared(), row);
    let raw = raw::augmentation_session(numbers(session, payload), payload.shared(), row);
    let answer = part(raw, copied.shared(), safe);
    if session == Session::NotAgreed {
        let safe = moult::augmentation(copied.shared(), row);
        let raw = raw::augmentation(payload.shared(), row);
        let without = part(raw, copied.shared(), safe);
        assert_eq!(without, answer, "without a session");
    }
    answer
}

pub fn frame_or(session: Session, payload: &Lent<u8>, row: usize, stand_in: &Lent<u8>) -> Part {
    let copied = (payload.clone(), stand_in.clone());
    let in_session = numbers(session, payload);
    let raw = raw::frame_or_session(in_session, payload.shared(), row, stand_in.shared());
    let lent = (copied.0.shared(), copied.1.shared());
    let answer = shown(
        raw,
        lent,
        moult::frame_or_in(wrapped(session), lent.0, row, lent.1),
    );
    if session == Session::NotAgreed {
        let raw = raw::frame_or(payload.shared(), row, stand_in.shared());
        let without = shown(raw, lent, moult::frame_or(lent.0, row, lent.1));
        assert_eq!(without, answer, "without a session");
    }
    answer
}

/// The same of a part of the payload or of the stand-in, which are lent in this order.
fn shown(raw: raw::Part, lent: (&[u8], &[u8]), shown: Shown) -> Part {
    let (of_stand_in, buffer) = match shown {
        Shown::Frame(_) => (0, lent.0),
        Shown::StandIn(_) => (1, lent.1),
    };
    assert_eq!(raw.stand_in, of_stand_in, "the wrapper's choice");
    part(raw, buffer, shown.octets())
}

pub fn read_settings(text: &Lent<u8>) -> Answer<raw::Settings> {
    let safe = Settings::read(text.clone().shared());
    if let Ok(settings) = &safe {
        assert_eq!(settings.to_string().parse(), Ok(*settings), "what is shown");
    }
    let safe = safe.map(|settings| {
        let mut values = [0, 0, 0, settings.tcmax()];
        values[..settings.rates().len()].copy_from_slice(settings.rates());
        values
    });
    let raw = raw::settings_read(text.shared());
    alike((raw.number, raw.place, raw.settings), safe)
}

/// Settings as the wrapper makes them: of the places up to the last that is not 0.
fn made(values: raw::Settings) -> Result<Settings, Refusal> {
    let [rates @ .., tcmax] = values;
    let used = rates.iter().rposition(|rate| *rate != 0);
    Settings::new(&rates[..used.map_or(0, |last| last + 1)], tcmax)
}

pub fn write_settings(values: raw::Settings, out: &mut Lent<u8>) -> Answer<usize> {
    let made = made(values);
    let answer = writing(
        out,
        |out| raw::settings_write(values, out),
        |out| made.and_then(|settings| settings.write(out)),
    );
    if let Ok(settings) = made {
        assert_ne!(answer.0, Reason::WrongSettings.number(), "{settings}");
    }
    answer
}

pub fn unpack(mode: u8, body: &Lent<u8>, fields: &mut Lent<u16>) -> Answer<usize> {
    writing(
        fields,
        |fields| raw::unpack(mode, body.shared(), fields),
        |fields| moult::unpack(mode, body.clone().shared(), fields),
    )
}

pub fn pack(mode: u8, fields: &Lent<u16>, out: &mut Lent<u8>) -> Answer<usize> {
    writing(
        out,
        |out| raw::pack(mode, fields.shared(), out),
        |out| moult::pack(mode, fields.clone().shared(), out),
    )
}

/// The raw answer at an index, and what the wrapper says of it next: the entry in place, the same refusal at `place`, or nothing.
fn found(
    raw: raw::Entry,
    journal: &[u8],
    safe: Option<Result<moult::journal::Entry, Refusal>>,
    place: usize,
) -> Found {
    match safe {
        Some(Ok(entry)) => {
            assert_eq!((raw.number, raw.entries), (0, 1), "the wrapper's entry");
            let numbers = (entry.ticks.into(), entry.source.into());
            assert_eq!((raw.ticks, raw.source), numbers, "the wrapper's numbers");
            let payload = &journal[raw.start..raw.next];
            assert!(ptr::eq(payload, entry.payload), "the wrapper's payload");
        }
        Some(Err(refusal)) => {
            let wrapped = (refusal.reason.number(), refusal.place);
            assert_eq!((raw.number, place), wrapped, "the wrapper's refusal");
        }
        None => assert_eq!((raw.number, raw.entries), (0, 0), "the wrapper's end"),
    }
    let entry = Entry {
        entries: raw.entries,
        ticks: raw.ticks,
        source: raw.source,
        start: raw.start,
        next: raw.next,
    };
    (raw.number, raw.place, entry)
}

/// At one index; the wrapper reads a journal that begins there.
pub fn journal_entry_at(journal: &Lent<u8>, at: usize) -> Found {
    let copied = journal.clone();
    let rest = copied.shared().get(at..).unwrap_or(&[]);
    let safe = moult::journal::entries(rest).next();
    let raw = raw::journal_entry_at(journal.shared(), at);
    found(raw, copied.shared(), safe, 0)
}

/// Entry by entry from the start, the answer at the end or the refusal last.
pub fn journal(journal: &Lent<u8>) -> Vec<Found> {
    let copied = journal.clone();
    let mut safe = moult::journal::entries(copied.shared());
    let (mut all, mut at) = (vec![], 0);
    loop {
        let raw = raw::journal_entry_at(journal.shared(), at);
        let (place, next) = (raw.place, raw.next);
        all.push(found(raw, copied.shared(), safe.next(), place));
        if all.last().is_some_and(|found| found.2.entries == 0) {
            assert_eq!(safe.next(), None, "the wrapper goes on");
            return all;
        }
        at = next;
    }
}

pub fn journal_write_entry(
    ticks: u64,
    source: u64,
    payload: &Lent<u8>,
    out: &mut Lent<u8>,
) -> Answer<usize> {
    writing(
        out,
        |out| raw::journal_write_entry(ticks, source, payload.shared(), out),
        |out| moult::journal::write_entry(ticks, source, payload.clone().shared(), out),
    )
}

/// An operation on a packet record.
#[derive(Clone, Copy, Debug)]
pub enum Operation {
    Push(u16, u16),
    Pop,
    Replace(usize, u16, u16),
}

/// A packet record of the wrapper's, and the same through the C ABI.
pub struct Record {
    raw: raw::Record,
    safe: moult::Record,
}

impl Record {
    pub fn new() -> Record {
        let record = Record {
            raw: raw::record_empty(),
            safe: moult::Record::default(),
        };
        assert_eq!(record.safe, moult::Record::new());
        record.same_totals();
        record
    }

    /// All of it.
    pub fn all(&self) -> &raw::Record {
        &self.raw
    }

    pub fn operate(&mut self, operation: Operation) -> Answer<()> {
        let before = (self.raw, self.safe.clone());
        let (raw, safe) = match operation {
            Operation::Push(kind, tc) => (
                raw::record_push(self.raw, kind, tc),
                self.safe.push(kind.into(), tc),
            ),
            Operation::Pop => (raw::record_pop(self.raw), self.safe.pop()),
            Operation::Replace(row, kind, tc) => (
                raw::record_replace(self.raw, row, kind, tc),
                self.safe.replace(row, kind.into(), tc),
            ),
        };
        if safe.is_err() {
            assert_eq!(raw.record, before.0, "refused");
            assert_eq!(self.safe, before.1, "the wrapper's, refused");
        }
        self.raw = raw.record;
        self.same_totals();
        alike((raw.number, raw.place, ()), safe)
    }

    fn same_totals(&self) {
        let raw = (
            raw::record_rows(self.raw),
            raw::record_octets(self.raw),
            raw::record_ticks(self.raw) as usize,
        );
        let safe = (self.safe.rows(), self.safe.octets(), self.safe.ticks().0);
        assert_eq!(raw, safe, "the wrapper's totals");
        let members = (self.raw.rows, self.raw.octets, self.raw.ticks as usize);
        assert_eq!(raw, members, "the record's own");
    }

    pub fn row(&self, row: usize) -> Answer<[u16; 2]> {
        let raw = raw::record_row(self.raw, row);
        let safe = self.safe.row(row).map(|(kind, tc)| [kind.number(), tc]);
        alike((raw.number, raw.place, [raw.kind, raw.tc]), safe)
    }

    pub fn start(&self, row: usize) -> Answer<usize> {
        let raw = raw::record_start(self.raw, row);
        alike((raw.number, raw.place, raw.start), self.safe.start(row))
    }
}
