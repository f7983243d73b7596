//! The writer on row lists and bodies, legal and damaged.

use crate::both::{self, Answer};
use crate::guard::{Lent, number, octet};
use crate::make::{self, base_octets, octets, rows_and_bodies};
use crate::prng::Prng;
use crate::{LONGER, Met, lengthened, sessions, wanted};
use second::{Session, writer};

const LEGAL: usize = 100_000;
const DAMAGED: usize = 300_000;
const RANDOM: usize = 100_000;

/// Compares one writing with the answer and the octets wanted; gives the number, 0 where accepted.
pub fn compare_to(
    answer: Answer<usize>,
    payload: &[u8],
    session: Session,
    rows: &[u16],
    bodies: &[u8],
    room: usize,
    prng: &mut Prng,
) -> u32 {
    let lent_rows = Lent::holding(rows, prng, number);
    let lent_bodies = Lent::holding(bodies, prng, octet);
    let mut out = Lent::new(room, prng, octet);
    let got = both::write(session, &lent_rows, &lent_bodies, &mut out);
    assert_eq!(
        got, answer,
        "writing {rows:?} {bodies:02x?} to {room}, {session:?}"
    );
    lent_rows.unchanged();
    lent_bodies.unchanged();
    out.holds_only(payload);
    answer.0
}

fn compare_in(session: Session, rows: &[u16], bodies: &[u8], room: usize, prng: &mut Prng) -> u32 {
    let mut out = vec![0; room];
    let written = writer::write_in(session, rows, bodies, &mut out);
    let (answer, payload) = wanted(written, out);
    compare_to(answer, &payload, session, rows, bodies, room, prng)
}

/// In the session that they were made for, whose number it gives, and in another one.
fn compare_made(
    session: Session,
    rows: &[u16],
    bodies: &[u8],
    room: usize,
    prng: &mut Prng,
) -> u32 {
    let [session, another] = sessions::with_another(session, prng);
    compare_in(another, rows, bodies, room, prng);
    compare_in(session, rows, bodies, room, prng)
}

/// In every session.
fn compare(rows: &[u16], bodies: &[u8], room: usize, prng: &mut Prng) {
    for session in sessions::ALL {
        compare_in(session, rows, bodies, room, prng);
    }
}

fn room(needed: usize, prng: &mut Prng) -> usize {
    match prng.below(4) {
        0 => 1400,
        1 => prng.below(needed + 1),
        _ => (needed + prng.below(5)).saturating_sub(2),
    }
}

fn a_kind(prng: &mut Prng) -> u16 {
    match prng.below(10) {
        0 => prng.pick(&[0, 7, 8, 255, 256, 257, 0x0105, 0x0106, 65535]),
        _ => prng.within(1, 6) as u16,
    }
}

fn a_tc(kind: u16, prng: &mut Prng) -> u16 {
    match (prng.below(12), kind) {
        (0, _) => prng.pick(&[0, 1, 14, 78, 255, 256, 257, 270, 271, 512, 65535]),
        (_, 5) => prng.within(1, 255) as u16,
        (_, 6) => prng.within(15, 77) as u16,
        _ => 0,
    }
}

fn damage(rows: &mut Vec<u16>, bodies: &mut Vec<u8>, prng: &mut Prng) {
    let row = prng.below(rows.len() / 2 + 1);
    let place = prng.below(bodies.len() + 1);
    match prng.below(10) {
        0 => bodies.insert(place, prng.octet()),
        1 if place < bodies.len() => drop(bodies.remove(place)),
        2 => rows.insert(2 * row, prng.below(8) as u16),
        3 | 4 if 2 * row < rows.len() => rows[2 * row] = a_kind(prng),
        5 if 2 * row + 1 < rows.len() => rows[2 * row + 1] = a_tc(rows[2 * row], prng),
        6 | 7 => spoil_an_end(rows, bodies, prng),
        _ if place < bodies.len() => bodies[place] = prng.pick(&make::EDGES),
        _ => bodies.push(0),
    }
}

/// Sets the last octet of some body to one at a limit.
fn spoil_an_end(rows: &[u16], bodies: &mut [u8], prng: &mut Prng) {
    let wanted = prng.below(rows.len() / 2 + 1);
    let mut start = 0;
    for row in rows.chunks_exact(2).take(wanted) {
        start += base_octets(row[0]) + row[1] as usize;
    }
    let kind = rows.get(2 * wanted).copied().unwrap_or(1);
    if let Some(end) = bodies.get_mut(start + base_octets(kind) - 1) {
        *end = prng.pick(&[1, 2, 31, 32, 63, 64, 127, 128, 255]);
    }
}

#[test]
fn legal() {
    let mut prng = Prng::new(21);
    for _ in 0..LEGAL {
        let session = sessions::legal(&mut prng);
        let frames = make::legal(session, &mut prng);
        let (rows, bodies) = rows_and_bodies(&frames);
        let room = room(octets(session, &frames).len(), &mut prng);
        compare_made(session, &rows, &bodies, room, &mut prng);
    }
}

#[test]
fn damaged() {
    let mut prng = Prng::new(22);
    let mut met = Met::default();
    for _ in 0..DAMAGED {
        let session = sessions::legal(&mut prng);
        let frames = make::legal(session, &mut prng);
        let (mut rows, mut bodies) = rows_and_bodies(&frames);
        for _ in 0..prng.within(1, 3) {
            damage(&mut rows, &mut bodies, &mut prng);
        }
        let room = room(octets(session, &frames).len(), &mut prng);
        met.note(compare_made(session, &rows, &bodies, room, &mut prng));
    }
    met.at_least(500, &[0, 3, 6, 8, 10, 11, 12, 13, 14]);
}

/// Rows in any order of kinds with bodies of about the right length.
#[test]
fn random() {
    let mut prng = Prng::new(23);
    let mut met = Met::default();
    for _ in 0..RANDOM {
        let frames = if prng.one_in(50) {
            prng.within(190, 210)
        } else {
            prng.below(6)
        };
        let one_kind = prng.one_in(2).then(|| prng.within(1, 6) as u16);
        let mut rows = vec![];
        for _ in 0..frames {
            let kind = one_kind.unwrap_or_else(|| a_kind(&mut prng));
            rows.extend([kind, a_tc(kind, &mut prng)]);
        }
        if prng.one_in(20) {
            rows.push(1);
        }
        let sum: usize = rows
            .chunks_exact(2)
            .map(|r| base_octets(r[0]) + r[1] as usize)
            .sum();
        let off = if prng.one_in(5) { prng.below(9) } else { 0 };
        let mut bodies = vec![0; sum.min(3000) + off];
        prng.fill(&mut bodies);
        bodies.iter_mut().for_each(|octet| *octet &= 1);
        let session = sessions::legal(&mut prng);
        met.note(compare_made(session, &rows, &bodies, 1400, &mut prng));
    }
    met.at_least(500, &[0, 1, 6, 8, 11, 12, 13, 14]);
}

/// Totals on both sides of 1,400 and 200 rows.
#[test]
fn around_the_limits() {
    let mut prng = Prng::new(24);
    for kind in 1..=6 {
        for frames in (120..=130)
            .chain(198..=203)
            .chain(1..=8)
            .chain([65_536, 65_737])
        {
            for tc in [1, 14, 15, 77, 78, 166, 167, 168, 255] {
                let tc = if kind >= 5 { tc } else { 0 };
                let rows = [kind, tc].repeat(frames);
                let bodies = vec![0; (base_octets(kind) + tc as usize) * frames.min(210)];
                compare(&rows, &bodies, 1400, &mut prng);
                compare(
                    &[&rows[..], &[4, 0]].concat(),
                    &[&bodies[..], &[0, 0]].concat(),
                    1402,
                    &mut prng,
                );
            }
        }
    }
}

/// Every TC up to 300 of both TSVCIS kinds, alone and behind another row.
#[test]
fn every_tc() {
    let mut prng = Prng::new(28);
    for kind in [5, 6] {
        for tc in 0..=300 {
            let bodies = vec![0; 14 + usize::from(tc)];
            compare(&[kind, tc], &bodies[7..], 1400, &mut prng);
            compare(&[1, 0, kind, tc], &bodies, 1400, &mut prng);
            compare(&[3, 0, kind, tc], &bodies, 1400, &mut prng);
        }
    }
}

/// Plain frames and one TSVCIS frame that together come to every total near 1,400, in any order.
#[test]
fn totals_around_the_limit() {
    let mut prng = Prng::new(26);
    let shapes = [
        (5, 190, 1),
        (5, 195, 1),
        (5, 170, 2),
        (5, 198, 2),
        (6, 190, 2),
        (6, 195, 2),
    ];
    for (kind, plain, count) in shapes {
        for total in 1395..=1405 {
            let tc = total - 7 * plain - 7 - count;
            let mut rows = [1, 0].repeat(plain);
            let at = 2 * prng.below(plain + 1);
            rows.splice(at..at, [kind, tc as u16]);
            let bodies = vec![0; total - count];
            for room in [1394, total - 1, total, 1406] {
                compare(&rows, &bodies, room, &mut prng);
            }
        }
    }
}

/// Rows, bodies and rooms that would do, or would not, if their lengths were cut.
#[test]
fn longer() {
    let mut prng = Prng::new(27);
    for by in LONGER {
        for _ in 0..200 {
            let session = sessions::legal(&mut prng);
            let frames = make::legal(session, &mut prng);
            let (rows, bodies) = rows_and_bodies(&frames);
            let needed = octets(session, &frames).len();
            compare(&lengthened(&rows, by, 0), &bodies, needed, &mut prng);
            compare(&rows, &lengthened(&bodies, by, 0), needed, &mut prng);
            let short = needed.saturating_sub(1) + by;
            compare(&rows, &bodies, short, &mut prng);
        }
    }
}

/// Every room from none to more than enough.
#[test]
fn rooms() {
    let mut prng = Prng::new(25);
    for _ in 0..200 {
        let session = sessions::legal(&mut prng);
        let frames = make::legal(session, &mut prng);
        let (rows, bodies) = rows_and_bodies(&frames);
        let needed = octets(session, &frames).len();
        if needed > 300 {
            continue;
        }
        for room in 0..needed + 4 {
            compare(&rows, &bodies, room, &mut prng);
        }
    }
}
