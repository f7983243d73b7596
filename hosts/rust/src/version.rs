//! The version of the library.
#![forbid(unsafe_code)]

use crate::ffi;
use core::fmt;

/// A version of the library: one of the same first number and not older has all that an older one
/// has.
#[derive(Clone, Copy, Debug, PartialEq, Eq, PartialOrd, Ord, Hash)]
pub struct Version {
    /// Raised where something that was there has changed.
    pub major: u32,
    /// Raised where something was added.
    pub minor: u32,
    /// Raised otherwise.
    pub patch: u32,
}

/// The version of the library that is linked.
///
/// ```
/// assert!(moult::version() >= moult::Version { major: 0, minor: 1, patch: 0 });
/// ```
pub fn version() -> Version {
    let number = ffi::version();
    Version {
        major: number / 10_000,
        minor: number / 100 % 100,
        patch: number % 100,
    }
}

impl fmt::Display for Version {
    fn fmt(&self, f: &mut fmt::Formatter<'_>) -> fmt::Result {
        write!(f, "{}.{}.{}", self.major, self.minor, self.patch)
    }
}
