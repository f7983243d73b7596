//! The implementations that are measured, each at some places in memory: see places.sh.

use second::abi::{
    Entry, Part, Reading, Record, RecordChange, SettingsReading, Start, Time, Writing,
};

type CountFn = unsafe extern "C" fn(*const u8, usize) -> i32;
type ReadFn = unsafe extern "C" fn(*const u8, usize, *mut u16, usize, *mut u8, usize) -> Reading;
type WriteFn = unsafe extern "C" fn(*const u16, usize, *const u8, usize, *mut u8, usize) -> Writing;
type TicksFn = unsafe extern "C" fn(*const u8, usize) -> Time;
type PtimeFn = unsafe extern "C" fn(u32, usize) -> Time;
type AugmentationFn = unsafe extern "C" fn(*const u8, usize, usize) -> Part;
type FrameOrFn = unsafe extern "C" fn(*const u8, usize, usize, *const u8, usize) -> Part;
type SettingsReadFn = unsafe extern "C" fn(*const u8, usize) -> SettingsReading;
type SettingsWriteFn = unsafe extern "C" fn(u16, u16, u16, u16, *mut u8, usize) -> Writing;
type UnpackFn = unsafe extern "C" fn(u8, *const u8, usize, *mut u16, usize) -> Writing;
type PackFn = unsafe extern "C" fn(u8, *const u16, usize, *mut u8, usize) -> Writing;
type EntryAtFn = unsafe extern "C" fn(*const u8, usize, usize) -> Entry;
type WriteEntryFn = unsafe extern "C" fn(u64, u64, *const u8, usize, *mut u8, usize) -> Writing;
type BodyOctetsFn = unsafe extern "C" fn(u16, u16) -> usize;
type RecordEmptyFn = unsafe extern "C" fn() -> Record;
type RecordPushFn = unsafe extern "C" fn(Record, u16, u16) -> RecordChange;
type RecordStartFn = unsafe extern "C" fn(Record, usize) -> Start;

/// One implementation at one place. The functions stand in the order that places.sh gives them.
#[repr(C)]
pub struct Calls {
    count: CountFn,
    read: ReadFn,
    write: WriteFn,
    packet_ticks: TicksFn,
    ptime: PtimeFn,
    augmentation: AugmentationFn,
    frame_or: FrameOrFn,
    settings_read: SettingsReadFn,
    settings_write: SettingsWriteFn,
    unpack: UnpackFn,
    pack: PackFn,
    journal_entry_at: EntryAtFn,
    journal_write_entry: WriteEntryFn,
    body_octets: BodyOctetsFn,
    record_empty: RecordEmptyFn,
    record_push: RecordPushFn,
    record_start: RecordStartFn,
}

// Each that takes slices is called with the pointer and length of ones that live through the call.
impl Calls {
    pub fn count(&self, payload: &[u8]) -> i32 {
        unsafe { (self.count)(payload.as_ptr(), payload.len()) }
    }

    pub fn read(&self, payload: &[u8], rows: &mut [u16], bodies: &mut [u8]) -> Reading {
        let (rows, rows_n) = (rows.as_mut_ptr(), rows.len());
        let (bodies, bodies_n) = (bodies.as_mut_ptr(), bodies.len());
        unsafe {
            (self.read)(
                payload.as_ptr(),
                payload.len(),
                rows,
                rows_n,
                bodies,
                bodies_n,
            )
        }
    }

    pub fn write(&self, rows: &[u16], bodies: &[u8], out: &mut [u8]) -> Writing {
        let (out, out_n) = (out.as_mut_ptr(), out.len());
        unsafe {
            (self.write)(
                rows.as_ptr(),
                rows.len(),
                bodies.as_ptr(),
                bodies.len(),
                out,
                out_n,
            )
        }
    }

    pub fn packet_ticks(&self, payload: &[u8]) -> Time {
        unsafe { (self.packet_ticks)(payload.as_ptr(), payload.len()) }
    }

    pub fn ptime(&self, rate: u32, frames: usize) -> Time {
        unsafe { (self.ptime)(rate, frames) }
    }

    pub fn augmentation(&self, payload: &[u8], row: usize) -> Part {
        unsafe { (self.augmentation)(payload.as_ptr(), payload.len(), row) }
    }

    pub fn frame_or(&self, payload: &[u8], row: usize, stand_in: &[u8]) -> Part {
        let (stand_in, stand_in_n) = (stand_in.as_ptr(), stand_in.len());
        unsafe { (self.frame_or)(payload.as_ptr(), payload.len(), row, stand_in, stand_in_n) }
    }

    pub fn settings_read(&self, text: &[u8]) -> SettingsReading {
        unsafe { (self.settings_read)(text.as_ptr(), text.len()) }
    }

    pub fn settings_write(&self, settings: [u16; 4], out: &mut [u8]) -> Writing {
        let [a, b, c, t] = settings;
        unsafe { (self.settings_write)(a, b, c, t, out.as_mut_ptr(), out.len()) }
    }

    pub fn unpack(&self, mode: u8, body: &[u8], fields: &mut [u16]) -> Writing {
        let (fields, fields_n) = (fields.as_mut_ptr(), fields.len());
        unsafe { (self.unpack)(mode, body.as_ptr(), body.len(), fields, fields_n) }
    }

    pub fn pack(&self, mode: u8, fields: &[u16], out: &mut [u8]) -> Writing {
        let (out, out_n) = (out.as_mut_ptr(), out.len());
        unsafe { (self.pack)(mode, fields.as_ptr(), fields.len(), out, out_n) }
    }

    pub fn journal_entry_at(&self, journal: &[u8], at: usize) -> Entry {
        unsafe { (self.journal_entry_at)(journal.as_ptr(), journal.len(), at) }
    }

    pub fn journal_write_entry(
        &self,
        ticks: u64,
        source: u64,
        payload: &[u8],
        out: &mut [u8],
    ) -> Writing {
        let (out, out_n) = (out.as_mut_ptr(), out.len());
        let (payload, payload_n) = (payload.as_ptr(), payload.len());
        unsafe { (self.journal_write_entry)(ticks, source, payload, payload_n, out, out_n) }
    }

    pub fn body_octets(&self, kind: u16, tc: u16) -> usize {
        unsafe { (self.body_octets)(kind, tc) }
    }

    pub fn record_empty(&self) -> Record {
        unsafe { (self.record_empty)() }
    }

    pub fn record_push(&self, record: Record, kind: u16, tc: u16) -> RecordChange {
        unsafe { (self.record_push)(record, kind, tc) }
    }

    pub fn record_start(&self, record: Record, row: usize) -> Start {
        unsafe { (self.record_start)(record, row) }
    }
}

/// So many as places.sh makes.
pub const PLACES: usize = 8;

pub type Placed = [Calls; PLACES];

unsafe extern "C" {
    static places_moult: Placed;
    static places_c: Placed;
    static places_rust: Placed;
    #[cfg(before)]
    static places_before: Placed;
}

/// Ours, C's and Rust's; and an earlier library of ours, where there is one to compare with.
pub fn implementations() -> Vec<&'static Placed> {
    // Tables of functions of these types, never written.
    unsafe {
        vec![
            &places_moult,
            &places_c,
            &places_rust,
            #[cfg(before)]
            &places_before,
        ]
    }
}
