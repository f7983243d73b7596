//! Refusals and their numbers ("Refusals" in docs/FORMAT.md).

pub const TOO_LONG: u32 = 1;
pub const FRAME_CUT: u32 = 2;
pub const RESERVED_BITS: u32 = 3;
pub const LONG_COUNT_ZERO: u32 = 4;
pub const COMFORT_NOISE_NOT_LAST: u32 = 6;
pub const AUGMENTATION_NOT_2400: u32 = 7;
pub const RATES_MIXED: u32 = 8;
pub const NUMBERS_TOO_SHORT: u32 = 9;
pub const OCTETS_TOO_SHORT: u32 = 10;
pub const ODD_ROWS: u32 = 11;
pub const UNKNOWN: u32 = 12;
pub const WRONG_TC: u32 = 13;
pub const WRONG_LENGTH: u32 = 14;
pub const WRONG_SETTINGS: u32 = 15;
pub const WRONG_MODE: u32 = 16;
pub const FIELD_TOO_LARGE: u32 = 17;
pub const BAD_NUMBER: u32 = 18;
pub const ENTRY_CUT: u32 = 19;

/// Why, and where or how much.
#[derive(Clone, Copy, Debug, PartialEq, Eq)]
pub struct Refusal {
    pub number: u32,
    pub place: usize,
}

pub(crate) fn refuse<T>(number: u32, place: usize) -> Result<T, Refusal> {
    Err(Refusal { number, place })
}
