//! ptime at every number of frames.

use crate::{both, whole};
use second::time;

/// Numbers of frames that would be few, or none, in 16 or 32 bits or as ticks in 64.
const FAR: [usize; 9] = [
    1 << 16,
    (1 << 16) + 5,
    1 << 32,
    (1 << 32) + 5,
    1 << 63,
    usize::MAX / 180 + 1,
    usize::MAX / 540 + 1,
    usize::MAX / 720 + 1,
    usize::MAX,
];

/// Every rate of 16 bits, and ones that would be a rate in 16 or 24.
#[test]
fn ptime() {
    let far_rates = [1 << 16, 1 << 24, 1 << 31].map(|high| [high + 600, high + 1200, high + 2400]);
    let far_rates = far_rates.into_iter().flatten();
    for rate in (0..=65_536).chain(far_rates).chain([u32::MAX]) {
        for frames in (0..=300).chain(FAR) {
            let got = both::ptime(rate, frames);
            let wanted = whole(time::ptime(rate, frames));
            assert_eq!(got, wanted, "{frames} frames at {rate}");
        }
    }
}
