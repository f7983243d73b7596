//! The fields beside RFC 8130's Table 3, bit by bit from B_01 to B_54: the field's name and, in
//! parentheses, the weight of the bit. Mode 3 prints LSF1,1(3) twice; B_26 is LSF1,1(2), as the sum
//! of 54 decides.

use crate::prng::Prng;

const MODE_1: &str = "\
    Voicing(4) Voicing(3) Voicing(2) Voicing(1) Voicing(0) LSF1,4(3) LSF1,4(2) LSF1,4(1) \
    LSF1,4(0) LSF1,3(3) LSF1,3(2) LSF1,3(1) LSF1,3(0) LSF1,2(3) LSF1,2(2) LSF1,2(1) \
    LSF1,2(0) LSF1,1(5) LSF1,1(4) LSF1,1(3) LSF1,1(2) LSF1,1(1) LSF1,1(0) LSF2,4(3) \
    LSF2,4(2) LSF2,4(1) LSF2,4(0) LSF2,3(3) LSF2,3(2) LSF2,3(1) LSF2,3(0) LSF2,2(3) \
    LSF2,2(2) LSF2,2(1) LSF2,2(0) LSF2,1(5) LSF2,1(4) LSF2,1(3) LSF2,1(2) LSF2,1(1) \
    LSF2,1(0) GAIN2(5) GAIN2(4) GAIN2(3) GAIN2(2) GAIN2(1) GAIN2(0) GAIN1(6) \
    GAIN1(5) GAIN1(4) GAIN1(3) GAIN1(2) GAIN1(1) GAIN1(0)";

const MODE_2: &str = "\
    Voicing(4) Voicing(3) Voicing(2) Voicing(1) Voicing(0) Pitch(5) Pitch(4) Pitch(3) \
    Pitch(2) Pitch(1) Pitch(0) LSF1,3(3) LSF1,3(2) LSF1,3(1) LSF1,3(0) LSF1,2(3) \
    LSF1,2(2) LSF1,2(1) LSF1,2(0) LSF1,1(5) LSF1,1(4) LSF1,1(3) LSF1,1(2) LSF1,1(1) \
    LSF1,1(0) LSF2,3(3) LSF2,3(2) LSF2,3(1) LSF2,3(0) LSF2,2(4) LSF2,2(3) LSF2,2(2) \
    LSF2,2(1) LSF2,2(0) LSF2,1(6) LSF2,1(5) LSF2,1(4) LSF2,1(3) LSF2,1(2) LSF2,1(1) \
    LSF2,1(0) GAIN2(5) GAIN2(4) GAIN2(3) GAIN2(2) GAIN2(1) GAIN2(0) GAIN1(6) \
    GAIN1(5) GAIN1(4) GAIN1(3) GAIN1(2) GAIN1(1) GAIN1(0)";

const MODE_3: &str = "\
    Voicing(4) Voicing(3) Voicing(2) Voicing(1) Voicing(0) Pitch(7) Pitch(6) Pitch(5) \
    Pitch(4) Pitch(3) Pitch(2) Pitch(1) Pitch(0) LSF1,3(3) LSF1,3(2) LSF1,3(1) \
    LSF1,3(0) LSF1,2(4) LSF1,2(3) LSF1,2(2) LSF1,2(1) LSF1,2(0) LSF1,1(5) LSF1,1(4) \
    LSF1,1(3) LSF1,1(2) LSF1,1(1) LSF1,1(0) LSF2,3(3) LSF2,3(2) LSF2,3(1) LSF2,3(0) \
    LSF2,2(4) LSF2,2(3) LSF2,2(2) LSF2,2(1) LSF2,2(0) LSF2,1(5) LSF2,1(4) LSF2,1(3) \
    LSF2,1(2) LSF2,1(1) LSF2,1(0) GAIN2(4) GAIN2(3) GAIN2(2) GAIN2(1) GAIN2(0) \
    GAIN1(5) GAIN1(4) GAIN1(3) GAIN1(2) GAIN1(1) GAIN1(0)";

const MODES: [&str; 3] = [MODE_1, MODE_2, MODE_3];

/// Of each bit the field, counted in order of first bits, and the weight.
fn bits(mode: &str) -> Vec<(usize, u32)> {
    let mut names = vec![];
    let mut bits = vec![];
    for bit in mode.split_whitespace() {
        let (name, weight) = bit.split_once('(').expect("a bit is NAME(WEIGHT)");
        if !names.contains(&name) {
            names.push(name);
        }
        let field = names.iter().position(|known| *known == name);
        let weight = weight.trim_end_matches(')').parse();
        bits.push((field.expect("it is there"), weight.expect("a number")));
    }
    bits
}

fn unpacked(bits: &[(usize, u32)], body: &[u8; 7]) -> Vec<u16> {
    let mut fields = vec![];
    for (j, &(field, weight)) in bits.iter().enumerate() {
        fields.resize(fields.len().max(field + 1), 0);
        let bit = body[j / 8] >> (j % 8) & 1;
        fields[field] += u16::from(bit) << weight;
    }
    fields
}

/// Each bit alone, and many bodies.
#[test]
fn fields_are_the_tables() {
    let mut prng = Prng::new(51);
    for (mode, text) in (1..).zip(MODES) {
        let bits = bits(text);
        assert_eq!(bits.len(), 54);
        let alone = (0..54).map(|j| (1u64 << j).to_le_bytes());
        let many = (0..10_000).map(|_| (prng.next() >> 10).to_le_bytes());
        for [a, b, c, d, e, f, g, _] in alone.chain(many) {
            let body = [a, b, c, d, e, f, g];
            let wanted = unpacked(&bits, &body);
            let mut fields = vec![0; wanted.len()];
            assert_eq!(moult::unpack(mode, &body, &mut fields), Ok(wanted.len()));
            assert_eq!(fields, wanted, "mode {mode}, body {body:02x?}");
            let mut packed = [0; 7];
            assert_eq!(moult::pack(mode, &fields, &mut packed), Ok(7));
            assert_eq!(packed, body, "mode {mode}, fields {fields:?}");
        }
    }
}
