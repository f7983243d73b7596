//! The implementations must agree on every input, at every place, before any is timed.

use crate::calls::{self, Calls};
use crate::inputs::{INPUTS, Mix, Small, mode};

#[track_caller]
fn same<T: PartialEq + std::fmt::Debug>(answer: impl Fn(&Calls) -> T) {
    let all = calls::implementations();
    let wanted = answer(&all[0][0]);
    for calls in all.into_iter().flatten() {
        assert_eq!(wanted, answer(calls));
    }
}

pub fn on_packets(mix: &Mix) {
    for packet in &mix.packets {
        same(|calls| {
            let (mut rows, mut bodies) = ([9; 400], [9; 1400]);
            (
                calls.read(&packet.payload, &mut rows, &mut bodies),
                rows,
                bodies,
            )
        });
        same(|calls| {
            let mut out = [9; 1400];
            (calls.write(&packet.rows, &packet.bodies, &mut out), out)
        });
        same(|calls| calls.count(&packet.payload));
        same(|calls| calls.packet_ticks(&packet.payload));
        same(|calls| calls.augmentation(&packet.payload, packet.row));
        same(|calls| calls.frame_or(&packet.payload, packet.row, &[0; 7]));
    }
}

pub fn on_small(small: &Small) {
    for input in 0..INPUTS {
        let (rate, frames) = small.timed[input];
        same(|calls| calls.ptime(rate, frames));
        same(|calls| calls.ptime(2400, input + 1));
        same(|calls| calls.settings_read(&small.texts[input]));
        same(|calls| {
            let mut out = [9; 31];
            (calls.settings_write(small.settings[input], &mut out), out)
        });
        same(|calls| {
            let mut fields = [9; 11];
            (
                calls.unpack(mode(input), &small.bodies[input], &mut fields),
                fields,
            )
        });
        same(|calls| {
            let mut out = [9; 7];
            (calls.pack(mode(input), &small.fields[input], &mut out), out)
        });
    }
}
