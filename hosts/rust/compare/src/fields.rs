//! 600 bps fields, unpacked and packed.

use crate::guard::{Lent, number, octet};
use crate::prng::Prng;
use crate::{LONGER, both, lengthened, wanted};
use second::fields;

const UNPACKED: usize = 250_000;
const PACKED: usize = 250_000;

pub fn compare_unpack(mode: u8, body: &[u8], room: usize, prng: &mut Prng) {
    let lent = Lent::holding(body, prng, octet);
    let mut fields = Lent::new(room, prng, number);
    let got = both::unpack(mode, &lent, &mut fields);
    let mut filled = vec![0; room];
    let (answer, filled) = wanted(fields::unpack(mode, body, &mut filled), filled);
    assert_eq!(got, answer, "unpacking {mode} {body:02x?} to {room}");
    lent.unchanged();
    fields.holds_only(&filled);
}

fn compare_pack(mode: u8, fields: &[u16], room: usize, prng: &mut Prng) {
    let lent = Lent::holding(fields, prng, number);
    let mut out = Lent::new(room, prng, octet);
    let got = both::pack(mode, &lent, &mut out);
    let mut body = vec![0; room];
    let (answer, body) = wanted(fields::pack(mode, fields, &mut body), body);
    assert_eq!(got, answer, "packing {mode} {fields:?} to {room}");
    lent.unchanged();
    out.holds_only(&body);
}

fn a_mode(prng: &mut Prng) -> u8 {
    match prng.below(12) {
        0 => prng.octet(),
        _ => prng.within(1, 3) as u8,
    }
}

/// Fields of the mode's widths, or of some, at times one of them too large.
fn some_fields(mode: u8, prng: &mut Prng) -> Vec<u16> {
    let widths = fields::widths(mode).unwrap_or(&[4; 10]);
    let mut fields: Vec<u16> = widths
        .iter()
        .map(|width| prng.below(1 << width) as u16)
        .collect();
    if prng.one_in(4) {
        let field = prng.below(fields.len());
        fields[field] = prng.pick(&[1 << widths[field], 128, 255, 256, 65535]);
    }
    if prng.one_in(10) {
        fields.resize(prng.below(14), 0);
    }
    fields
}

#[test]
fn unpack() {
    let mut prng = Prng::new(41);
    for _ in 0..UNPACKED {
        let octets = if prng.one_in(10) { prng.below(10) } else { 7 };
        let mut body = vec![0; octets];
        prng.fill(&mut body);
        if prng.below(6) > 0 && octets == 7 {
            body[6] &= 63;
        }
        let room = prng.within(8, 14);
        let mode = a_mode(&mut prng);
        compare_unpack(mode, &body, room, &mut prng);
    }
}

#[test]
fn pack() {
    let mut prng = Prng::new(42);
    for _ in 0..PACKED {
        let mode = a_mode(&mut prng);
        let fields = some_fields(mode, &mut prng);
        let room = prng.within(5, 10);
        compare_pack(mode, &fields, room, &mut prng);
    }
}

/// Each bit alone, each mode, each length of body, field list and room.
#[test]
fn corners() {
    let mut prng = Prng::new(43);
    for mode in 0..=255 {
        for bit in 0..56 {
            let mut body = [0; 7];
            body[bit / 8] = 1 << (bit % 8);
            compare_unpack(mode, &body, 11, &mut prng);
        }
        for octets in 0..20 {
            compare_unpack(mode, &vec![0; octets], 11, &mut prng);
            compare_unpack(mode, &[0; 7], octets, &mut prng);
            compare_pack(mode, &vec![0; octets], 7, &mut prng);
            compare_pack(mode, &[0; 10], octets, &mut prng);
            compare_pack(mode, &[0; 11], octets, &mut prng);
        }
    }
}

/// Bodies, field lists and rooms that would do, or would not, if their lengths were cut.
#[test]
fn longer() {
    let mut prng = Prng::new(45);
    for by in LONGER {
        for mode in 1..=3 {
            let body = [1; 7];
            let mut fields = [0; 11];
            let count = fields::unpack(mode, &body, &mut fields).expect("a body of 7 octets");
            let fields = &fields[..count];
            compare_unpack(mode, &lengthened(&body, by, 0), 11, &mut prng);
            compare_pack(mode, &lengthened(fields, by, 0), 7, &mut prng);
            for short in 0..12 {
                compare_unpack(mode, &body, short + by, &mut prng);
                compare_pack(mode, fields, short + by, &mut prng);
            }
        }
    }
}

/// Each field alone, at every value up to well past its width.
#[test]
fn each_field() {
    let mut prng = Prng::new(44);
    for mode in 1..=3 {
        let fields = fields::widths(mode).map_or(0, <[u32]>::len);
        for field in 0..fields {
            for value in (0..=1024).chain([32768, 65535]) {
                let mut list = vec![0; fields];
                list[field] = value;
                compare_pack(mode, &list, 7, &mut prng);
            }
        }
    }
}
