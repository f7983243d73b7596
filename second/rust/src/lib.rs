//! A second implementation of the format in safe Rust, written from RFC 8817, RFC 8130 and
//! docs/FORMAT.md, and apart from the library and from second/c. The Rust tests compare the library
//! with it, and the benchmark measures it beside the library.
//!
//! Every function refuses before it writes: a refusal changes nothing that was lent.
#![deny(unsafe_code)]
#![cfg_attr(not(feature = "abi"), forbid(unsafe_code))]

#[cfg(feature = "abi")]
pub mod abi;
pub mod fields;
pub mod journal;
pub mod kinds;
pub mod listing;
pub mod payload;
pub mod record;
pub mod refusal;
pub mod session;
pub mod settings;
pub mod time;
pub mod views;
pub mod writer;

pub use kinds::body_octets;
pub use record::Record;
pub use refusal::Refusal;
pub use session::Session;

/// Most octets of a payload.
pub const MAX_OCTETS: usize = 1400;
/// Most frames of a payload.
pub const MAX_FRAMES: usize = 200;
