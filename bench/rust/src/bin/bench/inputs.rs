//! What is measured: mixes of payloads with their rows and bodies, setting texts and settings, 600 bps bodies and fields.
//! The same in every run.

use second::kinds::Kind;
use second::{MAX_OCTETS, fields, payload, writer};

/// Inputs of each kind in a mix.
pub const INPUTS: usize = 64;

pub struct Prng(pub u64);

impl Prng {
    pub fn next(&mut self) -> u64 {
        self.0 = self.0.wrapping_add(0x9E37_79B9_7F4A_7C15);
        let mut z = self.0;
        z = (z ^ (z >> 30)).wrapping_mul(0xBF58_476D_1CE4_E5B9);
        z = (z ^ (z >> 27)).wrapping_mul(0x94D0_49BB_1331_11EB);
        z ^ (z >> 31)
    }

    pub fn below(&mut self, limit: usize) -> usize {
        (self.next() % limit as u64) as usize
    }
}

/// A payload, and the rows and bodies that the writer is to make it from.
pub struct Packet {
    pub payload: Vec<u8>,
    pub rows: Vec<u16>,
    pub bodies: Vec<u8>,
    /// The row to show.
    pub row: usize,
}

pub struct Mix {
    pub name: &'static str,
    pub packets: Vec<Packet>,
}

fn add_frame(packet: &mut Packet, kind: u16, tc: u16, prng: &mut Prng) {
    let known = Kind::of(kind).expect("a kind that there is");
    let octets = 0..known.body_octets(tc);
    let mut body: Vec<u8> = octets.map(|_| prng.next() as u8).collect();
    body[known.base - 1] = prng.below(usize::from(known.end) + 1) as u8;
    packet.rows.extend([kind, tc]);
    packet.bodies.extend(&body);
}

fn packet(rows: &[(u16, u16)], prng: &mut Prng) -> Packet {
    let mut packet = Packet {
        payload: vec![0; MAX_OCTETS],
        rows: vec![],
        bodies: vec![],
        row: 0,
    };
    for &(kind, tc) in rows {
        add_frame(&mut packet, kind, tc, prng);
    }
    let written = writer::write(&packet.rows, &packet.bodies, &mut packet.payload);
    packet.payload.truncate(written.expect("a legal packet"));
    packet.row = prng.below(rows.len());
    packet
}

fn noise_and_600(prng: &mut Prng) -> Packet {
    let mut rows = vec![(3, 0); 1 + prng.below(8)];
    rows.push((4, 0));
    packet(&rows, prng)
}

/// A payload of one of the other mixes, the long one shorter.
fn any(prng: &mut Prng) -> Packet {
    match prng.below(4) {
        0 => packet(&[(1, 0)], prng),
        1 => packet(&[(5, 35); 5], prng),
        2 => packet(&[(1, 0); 40], prng),
        _ => noise_and_600(prng),
    }
}

/// One octet of the payload changed, and one of the writer's rows or bodies. Most stay legal: a body's octets are free but for one.
fn damaged(prng: &mut Prng) -> Packet {
    let mut hurt = any(prng);
    let at = prng.below(hurt.payload.len());
    hurt.payload[at] = prng.next() as u8;
    if prng.below(2) == 0 {
        let at = prng.below(hurt.rows.len());
        hurt.rows[at] = prng.below(7) as u16;
    } else {
        let at = prng.below(hurt.bodies.len());
        hurt.bodies[at] = prng.next() as u8;
    }
    hurt
}

/// Damaged payloads that the reader refuses, each with rows and bodies that the writer refuses.
fn refused(prng: &mut Prng) -> Packet {
    let mut read = damaged(prng);
    while payload::count(&read.payload) >= 0 {
        read = damaged(prng);
    }
    let mut written = damaged(prng);
    while writer::write(&written.rows, &written.bodies, &mut [0; 1400]).is_ok() {
        written = damaged(prng);
    }
    Packet {
        rows: written.rows,
        bodies: written.bodies,
        ..read
    }
}

pub fn mixes() -> Vec<Mix> {
    let mut prng = Prng(2400);
    let mut mix = |name, make: fn(&mut Prng) -> Packet| Mix {
        name,
        packets: (0..INPUTS).map(|_| make(&mut prng)).collect(),
    };
    vec![
        mix("one 2400 frame", |prng| packet(&[(1, 0)], prng)),
        mix("five TSVCIS, TC 35", |prng| packet(&[(5, 35); 5], prng)),
        mix("200 frames", |prng| packet(&[(1, 0); 200], prng)),
        mix("comfort noise and 600", noise_and_600),
        mix("damaged", damaged),
        mix("refused", refused),
    ]
}

/// The three rates in turn with numbers of frames; setting texts and settings; bodies and fields of the modes 1 to 3 in turn.
pub struct Small {
    pub name: &'static str,
    pub timed: Vec<(u32, usize)>,
    pub texts: Vec<Vec<u8>>,
    pub settings: Vec<[u16; 4]>,
    pub bodies: Vec<Vec<u8>>,
    pub fields: Vec<Vec<u16>>,
}

pub fn mode(input: usize) -> u8 {
    1 + (input % 3) as u8
}

fn some_settings(prng: &mut Prng) -> [u16; 4] {
    let mut rates = [2400, 1200, 600];
    rates.rotate_left(prng.below(3));
    let used = 1 + prng.below(3);
    rates[used..].fill(0);
    let [first, second, third] = rates;
    [first, second, third, 1 + prng.below(255) as u16]
}

fn text([first, second, third, tcmax]: [u16; 4]) -> Vec<u8> {
    let mut text = format!("bitrate={first}");
    for rate in [second, third] {
        if rate != 0 {
            text += &format!(",{rate}");
        }
    }
    (text + &format!(";tcmax={tcmax}")).into_bytes()
}

fn some_time(input: usize, prng: &mut Prng) -> (u32, usize) {
    ([2400, 1200, 600][input % 3], 1 + prng.below(200))
}

fn some_fields(input: usize, prng: &mut Prng) -> Vec<u16> {
    let widths = fields::widths(mode(input)).expect("modes 1 to 3 have fields");
    widths
        .iter()
        .map(|width| prng.below(1 << width) as u16)
        .collect()
}

pub fn small_legal() -> Small {
    let mut prng = Prng(600);
    let settings: Vec<_> = (0..INPUTS).map(|_| some_settings(&mut prng)).collect();
    Small {
        name: "legal",
        timed: (0..INPUTS)
            .map(|input| some_time(input, &mut prng))
            .collect(),
        texts: settings.iter().copied().map(text).collect(),
        settings,
        bodies: (0..INPUTS)
            .map(|_| packet(&[(3, 0)], &mut prng).bodies)
            .collect(),
        fields: (0..INPUTS)
            .map(|input| some_fields(input, &mut prng))
            .collect(),
    }
}

/// The same with every other input damaged at one place.
pub fn small_damaged() -> Small {
    let mut prng = Prng(1200);
    let mut small = small_legal();
    small.name = "damaged";
    for input in (0..INPUTS).step_by(2) {
        let at = prng.below(small.texts[input].len());
        small.texts[input][at] = b' ';
        let at = prng.below(4);
        small.settings[input][at] = 1000;
        small.bodies[input][6] |= 64;
        match prng.below(3) {
            0 => small.timed[input].0 = 1000,
            1 => small.timed[input].1 = 0,
            _ => small.timed[input].1 += 200,
        }
        let at = prng.below(small.fields[input].len());
        small.fields[input][at] = 256;
    }
    small
}
