//! Makes payloads: legal ones of every shape, damaged, clipped, random and over-long ones.

use crate::prng::Prng;
use second::kinds::Kind;
use second::writer;
use second::{MAX_OCTETS, Session};

/// A frame: its row and its body.
#[derive(Clone, Debug, PartialEq, Eq)]
pub struct Frame {
    pub kind: u16,
    pub tc: u16,
    pub body: Vec<u8>,
}

/// Octets of a body without augmentation; of an unknown kind, some.
pub fn base_octets(kind: u16) -> usize {
    Kind::of(kind).map_or(7, |kind| kind.base)
}

/// The session, or another one for a kind that has no place in it.
fn session_of(session: Session, kind: u16) -> Session {
    match (session, kind) {
        (Session::Agreed(2400), 1 | 4..=6) | (Session::Agreed(600), 3 | 4) => session,
        (Session::Agreed(600), 5 | 6) => Session::Agreed(2400),
        _ => Session::NotAgreed,
    }
}

/// The octets of frames of legal bodies, whether or not they may stand in one payload.
pub fn octets(session: Session, frames: &[Frame]) -> Vec<u8> {
    let octets = |frame| frame_octets(session, frame);
    frames.iter().flat_map(octets).collect()
}

fn frame_octets(session: Session, frame: &Frame) -> Vec<u8> {
    let session = session_of(session, frame.kind);
    let mut octets = vec![0; frame.body.len() + 2];
    let row = [frame.kind, frame.tc];
    let written = writer::write_in(session, &row, &frame.body, &mut octets);
    octets.truncate(written.expect("a frame alone is a legal sequence"));
    octets
}

/// Rows and bodies of frames.
pub fn rows_and_bodies(frames: &[Frame]) -> (Vec<u16>, Vec<u8>) {
    let rows = frames.iter().flat_map(|f| [f.kind, f.tc]).collect();
    let bodies = frames.iter().flat_map(|f| f.body.clone()).collect();
    (rows, bodies)
}

/// Octets at which the rules change.
pub const EDGES: [u8; 24] = [
    0, 1, 2, 7, 14, 15, 16, 31, 32, 63, 64, 77, 78, 79, 127, 128, 129, 130, 159, 160, 191, 192,
    254, 255,
];

/// Octets at the ends of frames, where random payloads get far most often.
const ENDS: [u8; 12] = [0, 63, 64, 127, 128, 129, 160, 191, 192, 193, 254, 255];

fn octet(prng: &mut Prng) -> u8 {
    if prng.one_in(3) {
        prng.pick(&EDGES)
    } else {
        prng.octet()
    }
}

fn tc(prng: &mut Prng) -> u16 {
    let range = prng.pick(&[
        (1, 14),
        (1, 2),
        (15, 77),
        (14, 16),
        (35, 35),
        (76, 79),
        (78, 255),
    ]);
    prng.within(range.0, range.1) as u16
}

pub fn frame(session: Session, kind: u16, tc: u16, prng: &mut Prng) -> Frame {
    let known = Kind::of(kind).expect("a kind that there is");
    let end = match session_of(session, kind) {
        Session::Agreed(_) if known.base == 7 => 127,
        _ => usize::from(known.end),
    };
    let mut body: Vec<u8> = (0..known.body_octets(tc)).map(|_| octet(prng)).collect();
    body[known.base - 1] = prng.below(end + 1) as u8;
    Frame { kind, tc, body }
}

/// A TSVCIS frame, with either count where its TC allows both.
fn tsvcis(session: Session, prng: &mut Prng) -> Frame {
    let tc = tc(prng);
    let long = second::body_octets(6, tc) > 0 && prng.one_in(2);
    frame(session, if long { 6 } else { 5 }, tc, prng)
}

/// A shape of a sequence of the session.
fn shape(session: Session, prng: &mut Prng) -> usize {
    match session {
        Session::Agreed(2400) => prng.within(2, 5),
        Session::Agreed(600) => 1,
        _ => prng.below(6),
    }
}

/// A coder frame of a sequence's shape: all 1200, all 600, all 2400, all TSVCIS, or (4 and up) 2400
/// and TSVCIS side by side.
fn coder_frame(session: Session, shape: usize, prng: &mut Prng) -> Frame {
    match shape {
        0 => frame(session, 2, 0, prng),
        1 => frame(session, 3, 0, prng),
        2 => frame(session, 1, 0, prng),
        3 => tsvcis(session, prng),
        _ => {
            let next = 2 + prng.below(2);
            coder_frame(session, next, prng)
        }
    }
}

/// A legal sequence: mostly few frames, at times as many as fit.
pub fn legal(session: Session, prng: &mut Prng) -> Vec<Frame> {
    let shape = shape(session, prng);
    let frames = match prng.below(200) {
        0 => 200,
        1..=8 => prng.below(60),
        9..=20 => 0,
        _ => prng.below(7),
    };
    let mut sequence = vec![];
    let mut total = 0;
    for _ in 0..frames {
        let next = coder_frame(session, shape, prng);
        let wire = frame_octets(session, &next).len();
        if total + wire > MAX_OCTETS {
            break;
        }
        total += wire;
        sequence.push(next);
    }
    if prng.one_in(3) && total + 2 <= MAX_OCTETS {
        sequence.push(frame(session, 4, 0, prng));
    }
    sequence
}

pub fn legal_payload(session: Session, prng: &mut Prng) -> Vec<u8> {
    octets(session, &legal(session, prng))
}

fn damage_one(payload: &mut Vec<u8>, prng: &mut Prng) {
    if payload.is_empty() {
        payload.push(octet(prng));
        return;
    }
    // Near the end, where the walk starts, as often as anywhere.
    let reach = if prng.one_in(2) {
        payload.len().min(12)
    } else {
        payload.len()
    };
    let at = payload.len() - 1 - prng.below(reach);
    match prng.below(8) {
        0 => payload.insert(at, octet(prng)),
        1 => drop(payload.remove(at)),
        2 => payload[at] ^= 1 << prng.below(8),
        3 => payload[at] = prng.pick(&ENDS),
        _ => payload[at] = octet(prng),
    }
}

pub fn damaged_once(session: Session, prng: &mut Prng) -> Vec<u8> {
    let mut payload = legal_payload(session, prng);
    damage_one(&mut payload, prng);
    payload
}

pub fn damaged_often(session: Session, prng: &mut Prng) -> Vec<u8> {
    let mut payload = legal_payload(session, prng);
    for _ in 0..prng.within(2, 8) {
        damage_one(&mut payload, prng);
    }
    payload
}

/// Frames of legal bodies in any order of kinds: rates mixed, comfort noise anywhere.
pub fn mixed(session: Session, prng: &mut Prng) -> Vec<u8> {
    let mut sequence = vec![];
    for _ in 0..prng.within(1, 6) {
        let next = match prng.within(1, 5) {
            5 => tsvcis(session, prng),
            kind => frame(session, kind as u16, 0, prng),
        };
        sequence.push(next);
    }
    octets(session, &sequence)
}

pub fn clipped(session: Session, prng: &mut Prng) -> Vec<u8> {
    let payload = legal_payload(session, prng);
    let cut = prng.below(payload.len() + 1);
    match prng.below(3) {
        0 => payload[..cut].to_vec(),
        1 => payload[cut..].to_vec(),
        _ => {
            let to = prng.within(cut, payload.len());
            [&payload[..cut], &payload[to..]].concat()
        }
    }
}

pub fn random(_: Session, prng: &mut Prng) -> Vec<u8> {
    let length = match prng.below(64) {
        0 => prng.below(MAX_OCTETS + 1),
        1..=8 => prng.below(300),
        _ => prng.below(40),
    };
    let from = prng.below(3);
    let one = |prng: &mut Prng| match from {
        0 => prng.octet(),
        1 => octet(prng),
        _ => prng.pick(&ENDS),
    };
    (0..length).map(|_| one(prng)).collect()
}

/// Lengths on both sides of 1,400, of frames that would be legal but for the length.
pub fn long(session: Session, prng: &mut Prng) -> Vec<u8> {
    let mut payload = vec![];
    let shape = shape(session, prng);
    let length = prng.within(MAX_OCTETS - 20, MAX_OCTETS + 30);
    while payload.len() < length {
        let next = coder_frame(session, shape, prng);
        payload.extend(octets(session, &[next]));
    }
    if prng.one_in(2) {
        payload.truncate(length);
    }
    payload
}
