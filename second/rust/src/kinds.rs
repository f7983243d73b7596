//! The kinds of frames as one table ("Frames" and "Rows and bodies").

use crate::time::ticks_of;
use std::ops::RangeInclusive;

/// What a kind fixes.
#[derive(Clone, Copy)]
pub struct Kind {
    /// The first number of a row.
    pub number: u16,
    /// 0 for comfort noise, which has none.
    pub rate: u32,
    /// How long a frame lasts.
    pub ticks: usize,
    /// Octets of a body without augmentation, its base.
    pub base: usize,
    /// The largest last octet of the base in a body.
    pub end: u8,
    /// The rate code bits that stand in that octet on the wire.
    pub code: u8,
    /// Octets of augmentation, from the least to the most.
    tc: (u16, u16),
}

pub const PLAIN_2400: Kind = Kind {
    number: 1,
    rate: 2400,
    ticks: ticks_of(2400),
    base: 7,
    end: 63,
    code: 0,
    tc: (0, 0),
};
pub const PLAIN_1200: Kind = Kind {
    number: 2,
    rate: 1200,
    ticks: ticks_of(1200),
    base: 11,
    end: 1,
    code: 128,
    tc: (0, 0),
};
pub const PLAIN_600: Kind = Kind {
    number: 3,
    rate: 600,
    ticks: ticks_of(600),
    base: 7,
    end: 63,
    code: 64,
    tc: (0, 0),
};
pub const COMFORT_NOISE: Kind = Kind {
    number: 4,
    rate: 0,
    ticks: 0,
    base: 2,
    end: 31,
    code: 160,
    tc: (0, 0),
};
pub const TSVCIS: Kind = Kind {
    number: 5,
    rate: 2400,
    ticks: ticks_of(2400),
    base: 7,
    end: 63,
    code: 0,
    tc: (1, 255),
};
/// Its count is long where it could be short.
pub const TSVCIS_LONG: Kind = Kind {
    number: 6,
    tc: (15, 77),
    ..TSVCIS
};

/// In the order of their numbers, from 1.
const KINDS: [Kind; 6] = [
    PLAIN_2400,
    PLAIN_1200,
    PLAIN_600,
    COMFORT_NOISE,
    TSVCIS,
    TSVCIS_LONG,
];

/// Augmentation that a short count can tell.
const SHORT: RangeInclusive<u16> = 15..=77;

impl Kind {
    #[inline]
    pub fn of(number: u16) -> Option<Kind> {
        KINDS.get(usize::from(number).wrapping_sub(1)).copied()
    }

    #[inline]
    pub fn takes(self, tc: u16) -> bool {
        (self.tc.0..=self.tc.1).contains(&tc)
    }

    #[inline]
    pub fn is_coder_frame(self) -> bool {
        self.rate != 0
    }

    #[inline]
    pub fn body_octets(self, tc: u16) -> usize {
        self.base + usize::from(tc)
    }

    /// Octets of the count behind the augmentation.
    #[inline]
    pub fn count_octets(self, tc: u16) -> usize {
        match tc {
            0 => 0,
            tc if SHORT.contains(&tc) && self.number == TSVCIS.number => 1,
            _ => 2,
        }
    }

    #[inline]
    pub fn wire_octets(self, tc: u16) -> usize {
        self.body_octets(tc) + self.count_octets(tc)
    }
}

/// The octets of a row's body, 0 where the kind is unknown or the TC wrong for it.
pub fn body_octets(kind: u16, tc: u16) -> usize {
    match Kind::of(kind) {
        Some(kind) if kind.takes(tc) => kind.body_octets(tc),
        _ => 0,
    }
}
