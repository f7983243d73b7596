//! The only module with unsafe code: the declarations of moult.h, and each function over slices.
//!
//! Every call is sound for any slices: the library reads and writes within the lengths lent and
//! keeps no pointer. Records go in and come back by value, and any is taken.
#![allow(unsafe_code)]

#[repr(C)]
pub struct Reading {
    pub number: u32,
    pub rate: u32,
    pub place: usize,
    pub rows: usize,
    pub octets: usize,
    pub ticks: usize,
}

#[repr(C)]
pub struct Writing {
    pub number: u32,
    pub place: usize,
    pub octets: usize,
}

#[repr(C)]
pub struct Ticks {
    pub number: u32,
    pub place: usize,
    pub ticks: usize,
}

#[repr(C)]
pub struct Millis {
    pub number: u32,
    pub place: usize,
    pub millis: usize,
}

#[repr(C)]
pub struct Part {
    pub stand_in: u32,
    pub start: usize,
    pub length: usize,
}

/// First, second and third rate, and tcmax.
pub type Settings = [u16; 4];

/// Whether framing is agreed (0: not), and the rate.
pub type Session = [u32; 2];

#[repr(C)]
pub struct SettingsReading {
    pub number: u32,
    pub place: usize,
    pub settings: Settings,
}

#[repr(C)]
pub struct Entry {
    pub number: u32,
    pub entries: u32,
    pub place: usize,
    pub ticks: u64,
    pub source: u64,
    pub start: usize,
    pub next: usize,
}

#[repr(C)]
#[derive(Clone, Copy, Debug, PartialEq, Eq)]
pub struct Record {
    pub numbers: [u16; 400],
    pub starts: [u16; 200],
    pub rows: usize,
    pub octets: usize,
    pub ticks: u32,
}

#[repr(C)]
pub struct RecordChange {
    pub number: u32,
    pub place: usize,
    pub record: Record,
}

#[repr(C)]
pub struct Row {
    pub number: u32,
    pub kind: u16,
    pub tc: u16,
    pub place: usize,
}

#[repr(C)]
pub struct Start {
    pub number: u32,
    pub place: usize,
    pub start: usize,
}

unsafe extern "C" {
    fn moult_version() -> u32;
    fn moult_count(payload: *const u8, n: usize) -> i32;
    fn moult_read(
        payload: *const u8,
        n: usize,
        rows: *mut u16,
        rows_n: usize,
        bodies: *mut u8,
        bodies_n: usize,
    ) -> Reading;
    fn moult_body_octets(kind: u16, tc: u16) -> usize;
    fn moult_write(
        rows: *const u16,
        rows_n: usize,
        bodies: *const u8,
        bodies_n: usize,
        out: *mut u8,
        out_n: usize,
    ) -> Writing;
    fn moult_packet_ticks(payload: *const u8, n: usize) -> Ticks;
    fn moult_ptime(rate: u32, frames: usize) -> Millis;
    fn moult_augmentation(payload: *const u8, n: usize, row: usize) -> Part;
    fn moult_frame_or(
        payload: *const u8,
        n: usize,
        row: usize,
        stand_in: *const u8,
        stand_in_n: usize,
    ) -> Part;
    fn moult_read_session(
        agreed: u32,
        rate: u32,
        payload: *const u8,
        n: usize,
        rows: *mut u16,
        rows_n: usize,
        bodies: *mut u8,
        bodies_n: usize,
    ) -> Reading;
    fn moult_write_session(
        agreed: u32,
        rate: u32,
        rows: *const u16,
        rows_n: usize,
        bodies: *const u8,
        bodies_n: usize,
        out: *mut u8,
        out_n: usize,
    ) -> Writing;
    fn moult_packet_ticks_session(agreed: u32, rate: u32, payload: *const u8, n: usize) -> Ticks;
    fn moult_augmentation_session(
        agreed: u32,
        rate: u32,
        payload: *const u8,
        n: usize,
        row: usize,
    ) -> Part;
    fn moult_frame_or_session(
        agreed: u32,
        rate: u32,
        payload: *const u8,
        n: usize,
        row: usize,
        stand_in: *const u8,
        stand_in_n: usize,
    ) -> Part;
    fn moult_settings_read(text: *const u8, n: usize) -> SettingsReading;
    fn moult_settings_write(
        first: u16,
        second: u16,
        third: u16,
        tcmax: u16,
        out: *mut u8,
        out_n: usize,
    ) -> Writing;
    fn moult_unpack(
        mode: u8,
        body: *const u8,
        body_n: usize,
        fields: *mut u16,
        fields_n: usize,
    ) -> Writing;
    fn moult_pack(
        mode: u8,
        fields: *const u16,
        fields_n: usize,
        out: *mut u8,
        out_n: usize,
    ) -> Writing;
    fn moult_journal_entry_at(journal: *const u8, n: usize, at: usize) -> Entry;
    fn moult_journal_write_entry(
        ticks: u64,
        source: u64,
        payload: *const u8,
        payload_n: usize,
        out: *mut u8,
        out_n: usize,
    ) -> Writing;
    fn moult_record_empty() -> Record;
    fn moult_record_push(record: Record, kind: u16, tc: u16) -> RecordChange;
    fn moult_record_pop(record: Record) -> RecordChange;
    fn moult_record_replace(record: Record, row: usize, kind: u16, tc: u16) -> RecordChange;
    fn moult_record_rows(record: Record) -> usize;
    fn moult_record_octets(record: Record) -> usize;
    fn moult_record_ticks(record: Record) -> u32;
    fn moult_record_row(record: Record, row: usize) -> Row;
    fn moult_record_start(record: Record, row: usize) -> Start;
}

pub fn version() -> u32 {
    unsafe { moult_version() }
}

pub fn count(payload: &[u8]) -> i32 {
    unsafe { moult_count(payload.as_ptr(), payload.len()) }
}

pub fn read(payload: &[u8], rows: &mut [u16], bodies: &mut [u8]) -> Reading {
    unsafe {
        moult_read(
            payload.as_ptr(),
            payload.len(),
            rows.as_mut_ptr(),
            rows.len(),
            bodies.as_mut_ptr(),
            bodies.len(),
        )
    }
}

pub fn body_octets(kind: u16, tc: u16) -> usize {
    unsafe { moult_body_octets(kind, tc) }
}

pub fn write(rows: &[u16], bodies: &[u8], out: &mut [u8]) -> Writing {
    unsafe {
        moult_write(
            rows.as_ptr(),
            rows.len(),
            bodies.as_ptr(),
            bodies.len(),
            out.as_mut_ptr(),
            out.len(),
        )
    }
}

pub fn packet_ticks(payload: &[u8]) -> Ticks {
    unsafe { moult_packet_ticks(payload.as_ptr(), payload.len()) }
}

pub fn ptime(rate: u32, frames: usize) -> Millis {
    unsafe { moult_ptime(rate, frames) }
}

pub fn augmentation(payload: &[u8], row: usize) -> Part {
    unsafe { moult_augmentation(payload.as_ptr(), payload.len(), row) }
}

pub fn frame_or(payload: &[u8], row: usize, stand_in: &[u8]) -> Part {
    unsafe {
        moult_frame_or(
            payload.as_ptr(),
            payload.len(),
            row,
            stand_in.as_ptr(),
            stand_in.len(),
        )
    }
}

pub fn read_session(
    [agreed, rate]: Session,
    payload: &[u8],
    rows: &mut [u16],
    bodies: &mut [u8],
) -> Reading {
    unsafe {
        moult_read_session(
            agreed,
            rate,
            payload.as_ptr(),
            payload.len(),
            rows.as_mut_ptr(),
            rows.len(),
            bodies.as_mut_ptr(),
            bodies.len(),
        )
    }
}

pub fn write_session(
    [agreed, rate]: Session,
    rows: &[u16],
    bodies: &[u8],
    out: &mut [u8],
) -> Writing {
    unsafe {
        moult_write_session(
            agreed,
            rate,
            rows.as_ptr(),
            rows.len(),
            bodies.as_ptr(),
            bodies.len(),
            out.as_mut_ptr(),
            out.len(),
        )
    }
}

pub fn packet_ticks_session([agreed, rate]: Session, payload: &[u8]) -> Ticks {
    unsafe { moult_packet_ticks_session(agreed, rate, payload.as_ptr(), payload.len()) }
}

pub fn augmentation_session([agreed, rate]: Session, payload: &[u8], row: usize) -> Part {
    unsafe { moult_augmentation_session(agreed, rate, payload.as_ptr(), payload.len(), row) }
}

pub fn frame_or_session(
    [agreed, rate]: Session,
    payload: &[u8],
    row: usize,
    stand_in: &[u8],
) -> Part {
    unsafe {
        moult_frame_or_session(
            agreed,
            rate,
            payload.as_ptr(),
            payload.len(),
            row,
            stand_in.as_ptr(),
            stand_in.len(),
        )
    }
}

pub fn settings_read(text: &[u8]) -> SettingsReading {
    unsafe { moult_settings_read(text.as_ptr(), text.len()) }
}

pub fn settings_write([first, second, third, tcmax]: Settings, out: &mut [u8]) -> Writing {
    unsafe { moult_settings_write(first, second, third, tcmax, out.as_mut_ptr(), out.len()) }
}

pub fn unpack(mode: u8, body: &[u8], fields: &mut [u16]) -> Writing {
    unsafe {
        moult_unpack(
            mode,
            body.as_ptr(),
            body.len(),
            fields.as_mut_ptr(),
            fields.len(),
        )
    }
}

pub fn pack(mode: u8, fields: &[u16], out: &mut [u8]) -> Writing {
    unsafe {
        moult_pack(
            mode,
            fields.as_ptr(),
            fields.len(),
            out.as_mut_ptr(),
            out.len(),
        )
    }
}

pub fn journal_entry_at(journal: &[u8], at: usize) -> Entry {
    unsafe { moult_journal_entry_at(journal.as_ptr(), journal.len(), at) }
}

pub fn journal_write_entry(ticks: u64, source: u64, payload: &[u8], out: &mut [u8]) -> Writing {
    unsafe {
        moult_journal_write_entry(
            ticks,
            source,
            payload.as_ptr(),
            payload.len(),
            out.as_mut_ptr(),
            out.len(),
        )
    }
}

pub fn record_empty() -> Record {
    unsafe { moult_record_empty() }
}

pub fn record_push(record: Record, kind: u16, tc: u16) -> RecordChange {
    unsafe { moult_record_push(record, kind, tc) }
}

pub fn record_pop(record: Record) -> RecordChange {
    unsafe { moult_record_pop(record) }
}

pub fn record_replace(record: Record, row: usize, kind: u16, tc: u16) -> RecordChange {
    unsafe { moult_record_replace(record, row, kind, tc) }
}

pub fn record_rows(record: Record) -> usize {
    unsafe { moult_record_rows(record) }
}

pub fn record_octets(record: Record) -> usize {
    unsafe { moult_record_octets(record) }
}

pub fn record_ticks(record: Record) -> u32 {
    unsafe { moult_record_ticks(record) }
}

pub fn record_row(record: Record, row: usize) -> Row {
    unsafe { moult_record_row(record, row) }
}

pub fn record_start(record: Record, row: usize) -> Start {
    unsafe { moult_record_start(record, row) }
}
