//! The functions behind the library's C ABI, under the prefix `rust_`, so that each implementation
//! that is measured pays for the same call. A pointer and a length are those of a slice that lives
//! through the call.
#![allow(unsafe_code, clippy::missing_safety_doc)]

use crate::refusal::UNKNOWN;
use crate::{
    MAX_FRAMES, Refusal, fields, journal, kinds, payload, record, settings, time, views, writer,
};
use std::slice::{from_raw_parts, from_raw_parts_mut};

#[repr(C)]
#[derive(Clone, Copy, Debug, PartialEq)]
pub struct Reading {
    pub number: u32,
    pub rate: u32,
    pub place: usize,
    pub rows: usize,
    pub octets: usize,
    pub ticks: usize,
}

#[repr(C)]
#[derive(Clone, Copy, Debug, PartialEq)]
pub struct Writing {
    pub number: u32,
    pub place: usize,
    pub octets: usize,
}

#[repr(C)]
#[derive(Clone, Copy, Debug, PartialEq)]
pub struct Time {
    pub number: u32,
    pub place: usize,
    pub time: usize,
}

#[repr(C)]
#[derive(Clone, Copy, Debug, PartialEq)]
pub struct Part {
    pub stand_in: u32,
    pub start: usize,
    pub length: usize,
}

#[repr(C)]
#[derive(Clone, Copy, Debug, PartialEq)]
pub struct Settings(pub [u16; 4]);

#[repr(C)]
#[derive(Clone, Copy, Debug, PartialEq)]
pub struct SettingsReading {
    pub number: u32,
    pub place: usize,
    pub settings: Settings,
}

#[repr(C)]
#[derive(Clone, Copy, Debug, Default, PartialEq)]
pub struct Entry {
    pub number: u32,
    pub entries: u32,
    pub place: usize,
    pub ticks: u64,
    pub source: u64,
    pub start: usize,
    pub next: usize,
}

#[repr(C)]
#[derive(Clone, Copy, Debug, PartialEq)]
pub struct Record {
    pub numbers: [u16; 2 * MAX_FRAMES],
    pub starts: [u16; MAX_FRAMES],
    pub rows: usize,
    pub octets: usize,
    pub ticks: u32,
}

#[repr(C)]
#[derive(Clone, Copy, Debug, PartialEq)]
pub struct RecordChange {
    pub number: u32,
    pub place: usize,
    pub record: Record,
}

#[repr(C)]
#[derive(Clone, Copy, Debug, PartialEq)]
pub struct Row {
    pub number: u32,
    pub kind: u16,
    pub tc: u16,
    pub place: usize,
}

#[repr(C)]
#[derive(Clone, Copy, Debug, PartialEq)]
pub struct Start {
    pub number: u32,
    pub place: usize,
    pub start: usize,
}

impl Record {
    pub const EMPTY: Record = Record {
        numbers: [0; 2 * MAX_FRAMES],
        starts: [0; MAX_FRAMES],
        rows: 0,
        octets: 0,
        ticks: 0,
    };

    /// All of it, worked out from the rows.
    fn of(kept: &record::Record) -> Record {
        let mut record = Record {
            rows: kept.rows(),
            octets: kept.octets(),
            ticks: kept.ticks() as u32,
            ..Record::EMPTY
        };
        record.numbers[..kept.numbers().len()].copy_from_slice(kept.numbers());
        for (place, start) in record.starts.iter_mut().zip(kept.starts()) {
            *place = start as u16;
        }
        record
    }

    /// Its rows; of a record that no operation made, as many as it has room for.
    fn list(&self) -> &[u16] {
        &self.numbers[..2 * self.rows.min(MAX_FRAMES)]
    }

    fn changed(
        &self,
        operation: impl FnOnce(&mut record::Record) -> Result<(), Refusal>,
    ) -> Result<Record, Refusal> {
        let mut kept = record::Record::of(self.list())?;
        operation(&mut kept)?;
        Ok(Record::of(&kept))
    }

    /// Where refused, the record is as it was.
    fn change(
        self,
        operation: impl FnOnce(&mut record::Record) -> Result<(), Refusal>,
    ) -> RecordChange {
        let (number, place, record) = match self.changed(operation) {
            Ok(record) => (0, 0, record),
            Err(refusal) => (refusal.number, refusal.place, self),
        };
        RecordChange {
            number,
            place,
            record,
        }
    }
}

fn parts<T: Default>(answer: Result<T, Refusal>) -> (u32, usize, T) {
    match answer {
        Ok(value) => (0, 0, value),
        Err(refusal) => (refusal.number, refusal.place, T::default()),
    }
}

fn writing(answer: Result<usize, Refusal>) -> Writing {
    let (number, place, octets) = parts(answer);
    Writing {
        number,
        place,
        octets,
    }
}

fn time(answer: Result<usize, Refusal>) -> Time {
    let (number, place, time) = parts(answer);
    Time {
        number,
        place,
        time,
    }
}

#[unsafe(no_mangle)]
pub unsafe extern "C" fn rust_count(p: *const u8, n: usize) -> i32 {
    payload::count(unsafe { from_raw_parts(p, n) })
}

#[unsafe(no_mangle)]
pub unsafe extern "C" fn rust_read(
    p: *const u8,
    n: usize,
    r: *mut u16,
    rn: usize,
    b: *mut u8,
    bn: usize,
) -> Reading {
    let payload = unsafe { from_raw_parts(p, n) };
    let (rows, bodies) = unsafe { (from_raw_parts_mut(r, rn), from_raw_parts_mut(b, bn)) };
    let (number, place, walked) = parts(payload::read(payload, rows, bodies));
    Reading {
        number,
        rate: walked.rate,
        place,
        rows: walked.frames,
        octets: walked.octets,
        ticks: walked.ticks,
    }
}

#[unsafe(no_mangle)]
pub extern "C" fn rust_body_octets(kind: u16, tc: u16) -> usize {
    kinds::body_octets(kind, tc)
}

#[unsafe(no_mangle)]
pub unsafe extern "C" fn rust_write(
    r: *const u16,
    rn: usize,
    b: *const u8,
    bn: usize,
    o: *mut u8,
    on: usize,
) -> Writing {
    let (rows, bodies) = unsafe { (from_raw_parts(r, rn), from_raw_parts(b, bn)) };
    writing(writer::write(rows, bodies, unsafe {
        from_raw_parts_mut(o, on)
    }))
}

#[unsafe(no_mangle)]
pub unsafe extern "C" fn rust_packet_ticks(p: *const u8, n: usize) -> Time {
    time(time::packet_ticks(unsafe { from_raw_parts(p, n) }))
}

#[unsafe(no_mangle)]
pub unsafe extern "C" fn rust_ptime(rate: u32, frames: usize) -> Time {
    time(time::ptime(rate, frames))
}

#[unsafe(no_mangle)]
pub unsafe extern "C" fn rust_augmentation(p: *const u8, n: usize, row: usize) -> Part {
    let part = views::augmentation(unsafe { from_raw_parts(p, n) }, row);
    Part {
        stand_in: 0,
        start: part.start,
        length: part.len(),
    }
}

#[unsafe(no_mangle)]
pub unsafe extern "C" fn rust_frame_or(
    p: *const u8,
    n: usize,
    row: usize,
    _: *const u8,
    sn: usize,
) -> Part {
    match views::frame(unsafe { from_raw_parts(p, n) }, row) {
        Some(part) => Part {
            stand_in: 0,
            start: part.start,
            length: part.len(),
        },
        None => Part {
            stand_in: 1,
            start: 0,
            length: sn,
        },
    }
}

#[unsafe(no_mangle)]
pub unsafe extern "C" fn rust_settings_read(p: *const u8, n: usize) -> SettingsReading {
    let (number, place, values) = parts(settings::read(unsafe { from_raw_parts(p, n) }));
    SettingsReading {
        number,
        place,
        settings: Settings(values),
    }
}

#[unsafe(no_mangle)]
pub unsafe extern "C" fn rust_settings_write(
    a: u16,
    b: u16,
    c: u16,
    t: u16,
    o: *mut u8,
    on: usize,
) -> Writing {
    let out = unsafe { from_raw_parts_mut(o, on) };
    writing(settings::write([a, b, c, t], out))
}

#[unsafe(no_mangle)]
pub unsafe extern "C" fn rust_unpack(
    mode: u8,
    b: *const u8,
    bn: usize,
    f: *mut u16,
    fields_n: usize,
) -> Writing {
    let body = unsafe { from_raw_parts(b, bn) };
    writing(fields::unpack(mode, body, unsafe {
        from_raw_parts_mut(f, fields_n)
    }))
}

#[unsafe(no_mangle)]
pub unsafe extern "C" fn rust_pack(
    mode: u8,
    f: *const u16,
    fields_n: usize,
    o: *mut u8,
    on: usize,
) -> Writing {
    let fields = unsafe { from_raw_parts(f, fields_n) };
    writing(fields::pack(mode, fields, unsafe {
        from_raw_parts_mut(o, on)
    }))
}

#[unsafe(no_mangle)]
pub unsafe extern "C" fn rust_journal_entry_at(p: *const u8, n: usize, at: usize) -> Entry {
    match journal::entry_at(unsafe { from_raw_parts(p, n) }, at) {
        Ok(Some(entry)) => Entry {
            number: 0,
            entries: 1,
            place: 0,
            ticks: entry.ticks.into(),
            source: entry.source.into(),
            start: entry.payload.start,
            next: entry.payload.end,
        },
        Ok(None) => Entry::default(),
        Err(Refusal { number, place }) => Entry {
            number,
            place,
            ..Entry::default()
        },
    }
}

#[unsafe(no_mangle)]
pub unsafe extern "C" fn rust_journal_write_entry(
    ticks: u64,
    source: u64,
    p: *const u8,
    n: usize,
    o: *mut u8,
    on: usize,
) -> Writing {
    let payload = unsafe { from_raw_parts(p, n) };
    writing(journal::write_entry(ticks, source, payload, unsafe {
        from_raw_parts_mut(o, on)
    }))
}

#[unsafe(no_mangle)]
pub extern "C" fn rust_record_empty() -> Record {
    Record::EMPTY
}

#[unsafe(no_mangle)]
pub extern "C" fn rust_record_push(record: Record, kind: u16, tc: u16) -> RecordChange {
    record.change(|kept| kept.push(kind, tc))
}

#[unsafe(no_mangle)]
pub extern "C" fn rust_record_pop(record: Record) -> RecordChange {
    record.change(record::Record::pop)
}

#[unsafe(no_mangle)]
pub extern "C" fn rust_record_replace(
    record: Record,
    row: usize,
    kind: u16,
    tc: u16,
) -> RecordChange {
    record.change(|kept| kept.replace(row, kind, tc))
}

#[unsafe(no_mangle)]
pub extern "C" fn rust_record_rows(record: Record) -> usize {
    record.rows
}

#[unsafe(no_mangle)]
pub extern "C" fn rust_record_octets(record: Record) -> usize {
    record.octets
}

#[unsafe(no_mangle)]
pub extern "C" fn rust_record_ticks(record: Record) -> u32 {
    record.ticks
}

#[unsafe(no_mangle)]
pub extern "C" fn rust_record_row(record: Record, row: usize) -> Row {
    let found = record.list().chunks_exact(2).nth(row);
    match found {
        Some(numbers) => Row {
            number: 0,
            kind: numbers[0],
            tc: numbers[1],
            place: 0,
        },
        None => Row {
            number: UNKNOWN,
            kind: 0,
            tc: 0,
            place: 0,
        },
    }
}

#[unsafe(no_mangle)]
pub extern "C" fn rust_record_start(record: Record, row: usize) -> Start {
    let starts = &record.starts[..record.list().len() / 2];
    let (number, start) = match starts.get(row) {
        Some(start) => (0, usize::from(*start)),
        None => (UNKNOWN, 0),
    };
    Start {
        number,
        place: 0,
        start,
    }
}
