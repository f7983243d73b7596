//! Journals read entry by entry and entries written: legal, damaged, clipped and random ones.

use crate::guard::{Lent, octet};
use crate::prng::Prng;
use crate::{LONGER, Met, both, lengthened, make, whole};
use second::journal::{self, Entry};
use second::{MAX_OCTETS, Session};

const JOURNALS: usize = 40_000;
const WRITTEN: usize = 40_000;

/// Octets at which the rules of numbers change.
const EDGES: [u8; 10] = [0, 1, 15, 16, 127, 128, 129, 143, 144, 255];

/// A number of any number of groups, often at the edge of one.
fn some_number(prng: &mut Prng) -> u32 {
    let below = prng.next() as u32 >> prng.below(32);
    match prng.below(4) {
        0 => (1 << (7 * prng.below(5))) - prng.below(2) as u32,
        1 => u32::MAX - prng.below(3) as u32,
        _ => below,
    }
}

/// Payloads of all sorts, accepted or not; at times the longest.
fn some_payload(prng: &mut Prng) -> Vec<u8> {
    let long = prng.pick(&[127, 128, MAX_OCTETS - 1, MAX_OCTETS]);
    match prng.below(16) {
        0 => make::legal_payload(Session::NotAgreed, prng),
        1 => vec![prng.octet(); long],
        2..=6 => vec![],
        _ => (0..prng.below(12)).map(|_| prng.pick(&EDGES)).collect(),
    }
}

fn entry(ticks: u32, source: u32, payload: &[u8]) -> Vec<u8> {
    let mut octets = vec![0; payload.len() + 15];
    let written = journal::write_entry(ticks.into(), source.into(), payload, &mut octets);
    octets.truncate(written.expect("an entry that may be written"));
    octets
}

fn some_entry(prng: &mut Prng) -> Vec<u8> {
    let (ticks, source) = (some_number(prng), some_number(prng));
    entry(ticks, source, &some_payload(prng))
}

fn legal(prng: &mut Prng) -> Vec<u8> {
    (0..prng.below(6)).flat_map(|_| some_entry(prng)).collect()
}

fn damaged(prng: &mut Prng) -> Vec<u8> {
    let mut journal = legal(prng);
    for _ in 0..prng.within(1, 3) {
        let at = prng.below(journal.len() + 1);
        let octet = prng.pick(&EDGES);
        match prng.below(4) {
            0 if at < journal.len() => drop(journal.remove(at)),
            1 if at < journal.len() => journal[at] ^= 1 << prng.below(8),
            2 if at < journal.len() => journal[at] = octet,
            _ => journal.insert(at, octet),
        }
    }
    journal
}

fn clipped(prng: &mut Prng) -> Vec<u8> {
    let journal = legal(prng);
    let from = prng.below(journal.len() + 1);
    let to = prng.within(from, journal.len());
    match prng.below(3) {
        0 => journal[..from].to_vec(),
        1 => journal[from..].to_vec(),
        _ => [&journal[..from], &journal[to..]].concat(),
    }
}

fn random(prng: &mut Prng) -> Vec<u8> {
    let edges = prng.one_in(2);
    let one = |prng: &mut Prng| match edges {
        true => prng.pick(&EDGES),
        false => prng.octet(),
    };
    (0..prng.below(40)).map(|_| one(prng)).collect()
}

/// What the second implementation says of the entry at an index.
pub fn wanted(journal: &[u8], at: usize) -> both::Found {
    let (number, place, entry) = whole(journal::entry_at(journal, at));
    let values = |entry: Entry| both::Entry {
        entries: 1,
        ticks: entry.ticks.into(),
        source: entry.source.into(),
        start: entry.payload.start,
        next: entry.payload.end,
    };
    (number, place, entry.map(values).unwrap_or_default())
}

/// At any index, whether or not an entry begins there.
fn compare_at(journal: &Lent<u8>, at: usize, met: &mut Met) {
    let got = both::journal_entry_at(journal, at);
    let wanted = wanted(journal.shared(), at);
    assert_eq!(got, wanted, "at {at} of {:02x?}", journal.shared());
    met.note(wanted.0);
}

/// The whole journal, entry by entry, which ends at its end or at a refusal.
fn compare(journal: &[u8], prng: &mut Prng, met: &mut Met) {
    let lent = Lent::holding(journal, prng, octet);
    let (entries, end) = journal::read(journal);
    let places = entries.iter().map(|entry| entry.payload.end);
    let wanted: Vec<both::Found> = [0]
        .into_iter()
        .chain(places)
        .map(|at| wanted(journal, at))
        .collect();
    assert_eq!(both::journal(&lent), wanted, "of {journal:02x?}");
    let last = wanted.last().expect("there is an answer for the end");
    let end = end.map_or_else(|end| (end.number, end.place), |()| (0, 0));
    assert_eq!((last.0, last.1), end);
    met.note(last.0);
    lent.unchanged();
}

fn compare_some(make: fn(&mut Prng) -> Vec<u8>, seed: u64) -> Met {
    let mut prng = Prng::new(seed);
    let mut met = Met::default();
    for _ in 0..JOURNALS {
        let journal = make(&mut prng);
        compare(&journal, &mut prng, &mut met);
        let lent = Lent::holding(&journal, &mut prng, octet);
        for at in [prng.below(journal.len() + 1), journal.len() + 1, usize::MAX] {
            compare_at(&lent, at, &mut met);
        }
        lent.unchanged();
    }
    met
}

#[test]
fn legal_ones() {
    compare_some(legal, 81).at_least(1_000, &[0]);
}

#[test]
fn damaged_ones() {
    compare_some(damaged, 82).at_least(500, &[0, 1, 18, 19]);
}

#[test]
fn clipped_ones() {
    compare_some(clipped, 83).at_least(500, &[0, 1, 18, 19]);
}

#[test]
fn random_ones() {
    compare_some(random, 84).at_least(500, &[0, 1, 18, 19]);
}

/// Up to six octets at the edges, of which all but the last go on, as each of an entry's three numbers, with nothing and with
/// zeros behind them.
#[test]
fn every_number() {
    let mut prng = Prng::new(85);
    let mut met = Met::default();
    let mut numbers = vec![vec![]];
    for _ in 0..6 {
        numbers.retain(|number| number.last().is_none_or(|octet| *octet >= 128));
        let more = |number: &Vec<u8>| EDGES.map(|octet| [&number[..], &[octet]].concat());
        numbers = numbers.iter().flat_map(more).collect();
        for number in &numbers {
            for before in [&[][..], &[0], &[255, 1, 5]] {
                let journal = [before, number].concat();
                for zeros in 0..=2 {
                    let journal = lengthened(&journal, zeros, 0);
                    compare(&journal, &mut prng, &mut met);
                }
            }
        }
    }
    met.at_least(1_000, &[0, 1, 18, 19]);
}

/// Lengths on both sides of 1,400 and of each group's edge, with the body whole and cut.
#[test]
fn every_length() {
    let mut prng = Prng::new(86);
    let mut met = Met::default();
    let far = [16_383, 16_384, 65_536, 66_936, 1 << 21, 1 << 28, u32::MAX];
    for length in (0..=1500).chain(far) {
        // The length stands where an entry without a payload has its source.
        let mut head = entry(3, length, &[]);
        head.pop();
        let head = [&[9], &head[..]].concat();
        let whole = length.min(70_000) as usize;
        for body in [0, whole.saturating_sub(1), whole, whole + 1] {
            compare(&lengthened(&head, body, 0), &mut prng, &mut met);
        }
    }
    met.at_least(300, &[0, 1, 19]);
}

fn compare_write(
    (ticks, source, payload): (u64, u64, &[u8]),
    room: usize,
    prng: &mut Prng,
    met: &mut Met,
) -> usize {
    let lent = Lent::holding(payload, prng, octet);
    let mut out = Lent::new(room, prng, octet);
    let got = both::journal_write_entry(ticks, source, &lent, &mut out);
    let mut octets = vec![0; room];
    let second = journal::write_entry(ticks, source, payload, &mut octets);
    let (answer, octets) = crate::wanted(second, octets);
    assert_eq!(got, answer, "writing {ticks} {source} to {room}");
    out.holds_only(&octets);
    lent.unchanged();
    met.note(got.0);
    got.2
}

/// All rooms near the need, and what is written read back as the one entry that it is.
#[test]
fn written() {
    let mut prng = Prng::new(87);
    let mut met = Met::default();
    for _ in 0..WRITTEN / 8 {
        let (ticks, source) = (some_number(&mut prng), some_number(&mut prng));
        let payload = some_payload(&mut prng);
        let values = (ticks.into(), source.into(), &payload[..]);
        let octets = entry(ticks, source, &payload);
        let need = octets.len();
        for room in (need.saturating_sub(4)..need + 4).chain([0, need + LONGER[1]]) {
            let written = compare_write(values, room, &mut prng, &mut met);
            assert_eq!(written, if room < need { 0 } else { need });
        }
        let back: Vec<_> = moult::journal::entries(&octets).collect();
        let entry = moult::journal::Entry {
            ticks,
            source,
            payload: &payload,
        };
        assert_eq!(back, [Ok(entry)]);
    }
    met.at_least(10_000, &[0, 10]);
}

/// Numbers of more than 32 bits, payloads that are too long, and both.
#[test]
fn unfit() {
    let mut prng = Prng::new(88);
    let mut met = Met::default();
    let over = [1 << 32, (1 << 32) + 5, 1 << 35, 1 << 40, 1 << 63, u64::MAX];
    let numbers = [0, 5, u64::from(u32::MAX)].into_iter().chain(over);
    let lengths = [0, 1, MAX_OCTETS, MAX_OCTETS + 1, 1 << 14];
    let lengths = lengths.into_iter().chain(LONGER.map(|by| by + MAX_OCTETS));
    for ticks in numbers.clone() {
        for source in numbers.clone() {
            for length in lengths.clone().chain(LONGER) {
                let payload = vec![prng.octet(); length];
                for room in [0, length, length + 20] {
                    compare_write((ticks, source, &payload), room, &mut prng, &mut met);
                }
            }
        }
    }
    met.at_least(30, &[0, 1, 10, 18]);
}

fn written_again(entry: moult::journal::Entry) -> Vec<u8> {
    let mut out = [0; moult::MAX_ENTRY];
    let (ticks, source) = (entry.ticks.into(), entry.source.into());
    let written = moult::journal::write_entry(ticks, source, entry.payload, &mut out);
    out[..written.expect("what was read may be written")].to_vec()
}

/// Any journal's entries, as far as they go, are written as the octets that they were read from: each list of entries has one
/// journal.
#[test]
fn read_and_written() {
    let mut prng = Prng::new(89);
    for _ in 0..JOURNALS {
        let make = prng.pick(&[legal, damaged, clipped, random]);
        let journal = make(&mut prng);
        let mut again = vec![];
        let mut end = journal.len();
        for entry in moult::journal::entries(&journal) {
            match entry {
                Ok(entry) => again.extend(written_again(entry)),
                Err(refusal) => end = refusal.place,
            }
        }
        assert_eq!(again, journal[..end]);
    }
}
