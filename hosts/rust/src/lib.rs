//! Safe calls into moult, the proved library that reads and writes RTP payloads of MELPe and TSVCIS
//! speech frames (RFC 8817), tells their time, setting text and 600 bps fields (RFC 8130), keeps
//! payloads in a [`journal`], and a packet's frame starts in a [`Record`].
//!
//! ```
//! let payload = [0, 0, 0, 0, 0, 0, 0, 0x00, 0xA0]; // a 2400 bps frame, then comfort noise
//! let mut rows = [0; moult::MAX_NUMBERS];
//! let mut bodies = [0; moult::MAX_OCTETS];
//! match moult::read(&payload, &mut rows, &mut bodies) {
//!     Ok(reading) => {
//!         println!("{} frames, {}", reading.rows, reading.ticks); // 2 frames, 180 ticks
//!         for frame in reading.frames(&rows, &bodies) {
//!             let frame = frame.expect("these are the buffers that were read into");
//!             println!("{}: {:?}", frame.kind, frame.body);
//!         }
//!     }
//!     Err(refusal) => eprintln!("{refusal}"),
//! }
//! ```
//!
//! Most functions answer with a value or with a [`Refusal`], which says why and where; [`count`]
//! gives the [`Reason`] alone. [`augmentation`] and [`frame_or`] show parts of the slices lent and
//! refuse nothing. A refusal changes no lent memory; an acceptance changes the first places that it
//! reports and nothing beyond. Nothing is allocated or kept, and any thread may call at any time.
//!
//! Where the two ends of a call have agreed on a framing bit, the functions whose names end in `_in`
//! take the [`Session`].
//!
//! A newer library may give reasons and kinds that this crate has no name for: they come as
//! [`Reason::Other`] and [`Kind::Other`], with their numbers, and are handled like any other.
//!
//! # The library
//!
//! The build links the static library whose path MOULT_LIB gives or, where that is not set, the
//! installed one that `pkg-config moult` finds.
#![no_std]
#![deny(unsafe_code)]
#![warn(missing_docs)]

mod ffi;
mod fields;
mod frames;
pub mod journal;
mod numbered;
mod payload;
mod record;
mod refusal;
mod session;
mod settings;
mod time;
mod version;
mod views;

pub use fields::{pack, unpack};
pub use frames::{Frame, Frames, FramesError, Kind, body_octets, frames};
pub use payload::{Reading, count, read, read_in, write, write_in};
pub use record::Record;
pub use refusal::{Call, Reason, Refusal};
pub use session::Session;
pub use settings::Settings;
pub use time::{Millis, Ticks, packet_ticks, packet_ticks_in, ptime};
pub use version::{Version, version};
pub use views::{Shown, augmentation, augmentation_in, frame_or, frame_or_in};

/// Most octets of a payload.
pub const MAX_OCTETS: usize = 1400;
/// Most frames of a payload.
pub const MAX_FRAMES: usize = 200;
/// The numbers of that many rows.
pub const MAX_NUMBERS: usize = 2 * MAX_FRAMES;
/// Octets that hold any setting text written.
pub const MAX_SETTINGS: usize = 31;
/// Octets that hold any entry of a journal.
pub const MAX_ENTRY: usize = 1412;
/// Numbers that hold the fields of any mode.
pub const MAX_FIELDS: usize = 11;
/// Octets of a 600 bps body.
pub const BODY_600: usize = 7;
