//! Sessions with a framing bit.
#![forbid(unsafe_code)]

use crate::ffi;
use crate::refusal::Call;

/// What was agreed about bit 55, the bit of value 64 in the seventh octet of a 2400 or 600 bps frame.
///
/// It is part of the rate code, or it may alternate as an end-to-end framing bit and then says
/// nothing about the rate. [`read_in`](crate::read_in), [`write_in`](crate::write_in),
/// [`packet_ticks_in`](crate::packet_ticks_in), [`augmentation_in`](crate::augmentation_in) and
/// [`frame_or_in`](crate::frame_or_in) take a session; all other functions work as not agreed.
///
/// ```
/// use moult::{Kind, Session};
/// let payload = [0, 0, 0, 0, 0, 0, 0x40];
/// let (mut rows, mut bodies) = ([0; 2], [0; 7]);
/// moult::read_in(Session::NotAgreed, &payload, &mut rows, &mut bodies).unwrap();
/// assert_eq!((rows[0], bodies[6]), (Kind::Rate600.number(), 0));
/// moult::read_in(Session::Agreed(2400), &payload, &mut rows, &mut bodies).unwrap();
/// assert_eq!((rows[0], bodies[6]), (Kind::Rate2400.number(), 0x40));
/// ```
#[derive(Clone, Copy, Debug, Default, PartialEq, Eq, Hash)]
pub enum Session {
    /// Framing is not agreed: bit 55 is part of the rate code.
    #[default]
    NotAgreed,
    /// Framing is agreed, with the rate 2400 or 600; any other is refused as `Unknown`, before all
    /// else.
    ///
    /// A last octet of 0 to 127 is then a frame of that rate. Bit 55 stays in the bodies of kinds 1,
    /// 3, 5 and 6, whose ends are at most 127. Coder frames of another rate are refused as
    /// `RatesMixed`.
    Agreed(u32),
}

impl Session {
    /// As the C interface takes it.
    pub(crate) fn numbers(self) -> ffi::Session {
        match self {
            Session::NotAgreed => [0, 0],
            Session::Agreed(rate) => [1, rate],
        }
    }

    /// What a refusal of this call in this session is about.
    pub(crate) fn or(self, call: Call) -> Call {
        match self {
            Session::NotAgreed | Session::Agreed(2400 | 600) => call,
            Session::Agreed(_) => Call::Session,
        }
    }
}
