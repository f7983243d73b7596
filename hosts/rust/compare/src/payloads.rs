//! Reader, count, packet time and views, and the writer on what was read.

use crate::both::{self, Answer, Part, Read};
use crate::guard::{Lent, number, octet};
use crate::prng::Prng;
use crate::{LONGER, Met, lengthened, make, rows, sessions, whole};
use second::{Session, payload, time, views};

type Make = fn(Session, &mut Prng) -> Vec<u8>;

const LEGAL: usize = 300_000;
const DAMAGED_ONCE: usize = 220_000;
const DAMAGED_OFTEN: usize = 150_000;
const MIXED: usize = 100_000;
const CLIPPED: usize = 120_000;
const RANDOM: usize = 160_000;
const LONG: usize = 6_000;
/// All payloads of at most two octets.
const SHORTEST: usize = 1 + 256 + 256 * 256;
const _: () = assert!(
    LEGAL + DAMAGED_ONCE + DAMAGED_OFTEN + MIXED + CLIPPED + RANDOM + LONG + SHORTEST > 1_000_000
);

/// What the second implementation makes of a payload with this much room: the whole answer, and what
/// it puts into rows and bodies.
type Wanted = (Answer<Read>, Vec<u16>, Vec<u8>);

pub fn wanted(session: Session, payload: &[u8], rows_room: usize, bodies_room: usize) -> Wanted {
    let (mut rows, mut bodies) = (vec![0; rows_room], vec![0; bodies_room]);
    let read = payload::read_in(session, payload, &mut rows, &mut bodies);
    let (number, place, walked) = whole(read);
    rows.truncate(2 * walked.frames);
    bodies.truncate(walked.octets);
    let read = (walked.frames, walked.octets, walked.rate, walked.ticks);
    ((number, place, read), rows, bodies)
}

/// With room for any payload.
fn wanted_whole(session: Session, payload: &[u8]) -> Wanted {
    wanted(session, payload, 400, 1400)
}

/// Compares one reading; gives the refusal number wanted, 0 where accepted.
fn compare_read(
    session: Session,
    payload: &[u8],
    rows_room: usize,
    bodies_room: usize,
    prng: &mut Prng,
) -> u32 {
    let lent = Lent::holding(payload, prng, octet);
    let mut rows = Lent::new(rows_room, prng, number);
    let mut bodies = Lent::new(bodies_room, prng, octet);
    let got = both::read(session, &lent, &mut rows, &mut bodies);
    let (answer, rows_wanted, bodies_wanted) = wanted(session, payload, rows_room, bodies_room);
    assert_eq!(got, answer, "reading {payload:02x?}, {session:?}");
    lent.unchanged();
    rows.holds_only(&rows_wanted);
    bodies.holds_only(&bodies_wanted);
    answer.0
}

fn compare_count_and_ticks(session: Session, payload: &[u8], prng: &mut Prng) {
    let lent = Lent::holding(payload, prng, octet);
    let got = (both::count(&lent), both::packet_ticks(session, &lent));
    let ticks = whole(time::packet_ticks_in(session, payload));
    let wanted = (payload::count(payload), ticks);
    assert_eq!(
        got, wanted,
        "count and ticks of {payload:02x?}, {session:?}"
    );
    lent.unchanged();
}

/// A row's own octets or the stand-in, and the row's augmentation.
fn wanted_views(
    session: Session,
    payload: &[u8],
    row: usize,
    stand_in_octets: usize,
) -> (Part, Part) {
    let own = match views::frame_in(session, payload, row) {
        Some(part) => (0, part.start, part.len()),
        None => (1, 0, stand_in_octets),
    };
    let augmentation = views::augmentation_in(session, payload, row);
    (own, (0, augmentation.start, augmentation.len()))
}

fn compare_views(
    session: Session,
    payload: &[u8],
    row: usize,
    stand_in_octets: usize,
    prng: &mut Prng,
) {
    let lent = Lent::holding(payload, prng, octet);
    let stand_in = Lent::new(stand_in_octets, prng, octet);
    let got = (
        both::frame_or(session, &lent, row, &stand_in),
        both::augmentation(session, &lent, row),
    );
    let wanted = wanted_views(session, payload, row, stand_in_octets);
    assert_eq!(got, wanted, "row {row} of {payload:02x?}, {session:?}");
    lent.unchanged();
    stand_in.unchanged();
}

/// What was read is written as the same octets.
fn compare_writing_back(
    session: Session,
    payload: &[u8],
    rows: &[u16],
    bodies: &[u8],
    prng: &mut Prng,
) {
    let room = payload.len() + prng.below(3);
    let answer = (0, 0, payload.len());
    rows::compare_to(answer, payload, session, rows, bodies, room, prng);
}

/// A room around what is needed: short by a little, just enough, or more.
fn room_around(needed: usize, prng: &mut Prng) -> usize {
    match prng.below(8) {
        0 => 0,
        1 => needed + prng.below(40),
        _ => (needed + prng.below(5)).saturating_sub(2),
    }
}

fn rows_to_view(frames: usize, prng: &mut Prng) -> Vec<usize> {
    let far = prng.pick(&[usize::MAX, usize::MAX / 2, 200, 1400, 1 << 16, 1 << 32]);
    let mut rows = vec![0, frames, far];
    if frames > 0 {
        rows.extend([frames - 1, prng.below(frames)]);
    }
    rows
}

/// Compares all functions of a payload in a session, and notes the refusals of its two readings.
fn compare_in(session: Session, payload: &[u8], met: &mut Met, prng: &mut Prng) {
    let (answer, rows, bodies) = wanted_whole(session, payload);
    let (needed_rows, needed_octets) = (rows.len(), bodies.len());
    compare_count_and_ticks(session, payload, prng);
    met.note(compare_read(
        session,
        payload,
        needed_rows,
        needed_octets,
        prng,
    ));
    let rows_room = room_around(needed_rows, prng);
    let bodies_room = room_around(needed_octets, prng);
    met.note(compare_read(session, payload, rows_room, bodies_room, prng));
    for row in rows_to_view(rows.len() / 2, prng) {
        let stand_in_octets = prng.below(20);
        compare_views(session, payload, row, stand_in_octets, prng);
    }
    if answer.0 == 0 {
        compare_writing_back(session, payload, &rows, &bodies, prng);
    }
}

/// In the session that it was made for, and in another one.
fn compare_made(session: Session, payload: &[u8], met: &mut Met, prng: &mut Prng) {
    for session in sessions::with_another(session, prng) {
        compare_in(session, payload, met, prng);
    }
}

/// In every session.
fn compare(payload: &[u8], met: &mut Met, prng: &mut Prng) {
    for session in sessions::ALL {
        compare_in(session, payload, met, prng);
    }
}

fn compare_many(seed: u64, cases: usize, make: Make) -> Met {
    let mut prng = Prng::new(seed);
    let mut met = Met::default();
    for _ in 0..cases {
        let session = sessions::legal(&mut prng);
        let payload = make(session, &mut prng);
        compare_made(session, &payload, &mut met, &mut prng);
    }
    assert_eq!(met.0[5], 0, "refusal 5 is no longer given");
    met
}

/// Legal sequences: what is read is what they were made of.
#[test]
fn legal() {
    let mut prng = Prng::new(1);
    let mut met = Met::default();
    for _ in 0..LEGAL {
        let session = sessions::legal(&mut prng);
        let frames = make::legal(session, &mut prng);
        let payload = make::octets(session, &frames);
        let (_, rows, bodies) = wanted_whole(session, &payload);
        assert_eq!((rows, bodies), make::rows_and_bodies(&frames));
        compare_made(session, &payload, &mut met, &mut prng);
    }
    met.at_least(1000, &[0, 7, 8, 9, 10, 12]);
}

#[test]
fn damaged_once() {
    compare_many(2, DAMAGED_ONCE, make::damaged_once).at_least(100, &[0, 2, 3, 4, 6, 7, 8, 9, 10]);
}

#[test]
fn damaged_often() {
    compare_many(3, DAMAGED_OFTEN, make::damaged_often)
        .at_least(200, &[0, 2, 3, 4, 6, 7, 8, 9, 10]);
}

#[test]
fn mixed() {
    compare_many(4, MIXED, make::mixed).at_least(1000, &[0, 6, 8]);
}

#[test]
fn clipped() {
    compare_many(5, CLIPPED, make::clipped).at_least(1000, &[0, 2, 3]);
}

#[test]
fn random() {
    compare_many(6, RANDOM, make::random).at_least(1000, &[0, 2, 3, 4, 6, 7, 8]);
}

#[test]
fn long() {
    compare_many(7, LONG, make::long).at_least(200, &[0, 1, 3, 6, 7, 8]);
}

#[test]
fn far_too_long() {
    let mut prng = Prng::new(11);
    let mut met = Met::default();
    for length in [1401, 2800, 65_536 + 7, 1 << 20] {
        compare(&vec![0; length], &mut met, &mut prng);
        compare(&vec![255; length], &mut met, &mut prng);
    }
}

/// Payloads, rooms, rows and stand-ins that would do, or would not, if their lengths were cut.
#[test]
fn longer() {
    let mut prng = Prng::new(12);
    let mut met = Met::default();
    for by in LONGER {
        for _ in 0..200 {
            let session = sessions::legal(&mut prng);
            let payload = make::legal_payload(session, &mut prng);
            let (_, rows, bodies) = wanted_whole(session, &payload);
            let (rows, bodies) = (rows.len(), bodies.len());
            let short = rows.saturating_sub(1) + by;
            compare_read(session, &payload, short, bodies, &mut prng);
            let short = bodies.saturating_sub(1) + by;
            compare_read(session, &payload, rows, short, &mut prng);
            let row = prng.below(rows / 2 + 1);
            compare_views(session, &payload, row + by, row + by, &mut prng);
            compare(&lengthened(&payload, by, 0), &mut met, &mut prng);
        }
    }
    met.at_least(200, &[1]);
}

#[test]
fn shortest() {
    let mut prng = Prng::new(8);
    let mut met = Met::default();
    compare(&[], &mut met, &mut prng);
    for first in 0..=255 {
        compare(&[first], &mut met, &mut prng);
        for second in 0..=255 {
            compare(&[first, second], &mut met, &mut prng);
        }
    }
}

/// Every TC and count with every length of clip at the front, and every last octet and octet before
/// it behind every such frame.
#[test]
fn every_count() {
    let mut prng = Prng::new(9);
    let mut met = Met::default();
    let short_or_long = (1..=255).map(|tc| (5, tc));
    let long = (15..=77).map(|tc| (6, tc));
    for (kind, tc) in short_or_long.chain(long) {
        let session = sessions::legal(&mut prng);
        let frame = make::frame(session, kind, tc, &mut prng);
        let payload = make::octets(session, &[frame]);
        for cut in 0..payload.len() {
            compare_made(session, &payload[cut..], &mut met, &mut prng);
        }
        for at in [payload.len() - 1, payload.len() - 2] {
            for octet in 0..=255 {
                let mut other = payload.clone();
                other[at] = octet;
                compare_made(session, &other, &mut met, &mut prng);
            }
        }
    }
}

/// Every last octet of a frame of seven octets and of a base, in every session, alone and in front of
/// another frame.
#[test]
fn every_end() {
    let mut prng = Prng::new(13);
    let mut met = Met::default();
    for end in 0..=255 {
        let plain = [1, 2, 3, 4, 5, 6, end];
        for behind in [&[][..], &[0; 7], &[64; 7], &[0, 160]] {
            for count in [&[][..], &[9, 1, 255], &[9; 16], &[9, 9, 255]] {
                let mut payload = [&plain[..], count, behind].concat();
                compare(&payload, &mut met, &mut prng);
                payload.splice(0..0, [1, 2, 3, 4, 5, 6, 127]);
                compare(&payload, &mut met, &mut prng);
            }
        }
    }
    met.at_least(100, &[0, 2, 3, 6, 7, 8, 12]);
}

/// Every room from none to more than enough, for both buffers at once.
#[test]
fn rooms() {
    let mut prng = Prng::new(10);
    for _ in 0..120 {
        let session = sessions::legal(&mut prng);
        let payload = make::legal_payload(session, &mut prng);
        let (_, rows, bodies) = wanted_whole(session, &payload);
        if rows.len() > 12 || bodies.len() > 80 {
            continue;
        }
        for rows_room in 0..rows.len() + 4 {
            for bodies_room in 0..bodies.len() + 3 {
                compare_read(session, &payload, rows_room, bodies_room, &mut prng);
            }
        }
    }
}

/// Every TC of every kind that there may be, and some TCs of every other.
#[test]
fn body_octets() {
    let kinds = (0..=16).chain([255, 256, 257, 261, u16::MAX]);
    let every_tc = kinds.flat_map(|kind| (0..=u16::MAX).map(move |tc| (kind, tc)));
    let tcs = [0, 1, 14, 15, 77, 78, 255, 256, u16::MAX];
    let every_kind = (0..=u16::MAX).flat_map(|kind| tcs.map(|tc| (kind, tc)));
    for (kind, tc) in every_tc.chain(every_kind) {
        let got = both::body_octets(kind, tc);
        assert_eq!(got, second::body_octets(kind, tc), "row ({kind}, {tc})");
    }
}
