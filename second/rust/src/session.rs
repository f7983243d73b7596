//! Sessions with a framing bit ("Sessions").

use crate::kinds::Kind;
use crate::refusal::{Refusal, UNKNOWN, refuse};

/// What was agreed about bit 55: nothing, so that it is part of the rate code; or that it is a
/// framing bit, and the rate of the coder frames.
#[derive(Clone, Copy, Debug, PartialEq, Eq)]
pub enum Session {
    NotAgreed,
    Agreed(u32),
}

/// A session that there is.
#[derive(Clone, Copy, PartialEq, Eq)]
pub(crate) enum Framing {
    No,
    At2400,
    At600,
}

impl Session {
    /// The refusal comes before all others.
    #[inline(always)]
    pub(crate) fn framing(self) -> Result<Framing, Refusal> {
        match self {
            Session::NotAgreed => Ok(Framing::No),
            Session::Agreed(2400) => Ok(Framing::At2400),
            Session::Agreed(600) => Ok(Framing::At600),
            Session::Agreed(_) => refuse(UNKNOWN, 0),
        }
    }
}

impl Framing {
    /// The rate that coder frames must have before any is read; 0 for any.
    #[inline(always)]
    pub(crate) fn first_rate(self) -> u32 {
        match self {
            Framing::No => 0,
            Framing::At2400 => 2400,
            Framing::At600 => 600,
        }
    }

    /// A kind as it is in the session. Bit 55 has the value 64 in the end of a base of seven octets;
    /// where it is the framing bit, it is no rate code bit, and any body may have it.
    #[inline(always)]
    pub(crate) fn kind(self, mut kind: Kind) -> Kind {
        if self != Framing::No && kind.base == 7 {
            kind.end = 127;
            kind.code = 0;
        }
        kind
    }
}
