//! A journal of many entries, read from end to end and written anew.

use crate::calls::{self, Calls};
use crate::inputs::Prng;
use crate::timing::{self, Table};
use second::MAX_OCTETS;
use second::abi;
use std::hint::black_box;
use std::time::{Duration, Instant};

const ENTRIES: usize = 1_000_000;
const MIX: &str = "empty, short and 1,400";

/// An entry to write: its payload is so many octets of one that all share.
struct Entry {
    ticks: u64,
    source: u64,
    octets: usize,
}

/// Entries, and the octets of their journal.
pub struct Journal {
    entries: Vec<Entry>,
    payload: Vec<u8>,
    octets: Vec<u8>,
}

/// Ticks of a packet and one of 200 sources or, at times, any numbers of 32 bits; payloads of some frames, and at times none or
/// the most octets.
fn entry(prng: &mut Prng) -> Entry {
    let far = prng.below(16) == 0;
    let ticks = 180 * (1 + prng.below(8)) as u64;
    let source = 1 + prng.below(200) as u64;
    Entry {
        ticks: if far { prng.next() >> 32 } else { ticks },
        source: if far { prng.next() >> 32 } else { source },
        octets: match prng.below(64) {
            0 => MAX_OCTETS,
            1..=16 => 0,
            _ => 7 * (1 + prng.below(8)),
        },
    }
}

impl Journal {
    pub fn new() -> Self {
        let mut prng = Prng(1400);
        let mut journal = Journal {
            entries: (0..ENTRIES).map(|_| entry(&mut prng)).collect(),
            payload: (0..MAX_OCTETS).map(|_| prng.next() as u8).collect(),
            octets: vec![],
        };
        let payloads: usize = journal.entries.iter().map(|entry| entry.octets).sum();
        let mut octets = vec![0; payloads + 12 * ENTRIES];
        let rattle = &calls::implementations()[0][0];
        let written = journal.write(rattle, &mut octets);
        octets.truncate(written);
        journal.octets = octets;
        journal
    }

    /// Hands out each answer up to that at the end.
    fn read(&self, calls: &Calls, mut each: impl FnMut(abi::Entry)) {
        let mut at = 0;
        loop {
            let found = calls.journal_entry_at(&self.octets, at);
            each(found);
            if found.entries == 0 {
                return;
            }
            at = found.next;
        }
    }

    fn write(&self, calls: &Calls, out: &mut [u8]) -> usize {
        let mut at = 0;
        for entry in &self.entries {
            let payload = &self.payload[..entry.octets];
            let room = &mut out[at..];
            let written = calls.journal_write_entry(entry.ticks, entry.source, payload, room);
            at += written.octets;
        }
        at
    }

    /// What is read is what was written, by all implementations, at every place.
    fn agree(&self) {
        for calls in calls::implementations().into_iter().flatten() {
            let mut wanted = self.entries.iter();
            self.read(calls, |found| match wanted.next() {
                Some(entry) => {
                    let numbers = (found.number, found.ticks, found.source);
                    assert_eq!(numbers, (0, entry.ticks, entry.source));
                    assert_eq!(found.next - found.start, entry.octets);
                }
                None => assert_eq!(found, abi::Entry::default()),
            });
            assert!(wanted.next().is_none());
            let mut out = vec![0; self.octets.len()];
            assert_eq!(self.write(calls, &mut out), out.len());
            assert!(out == self.octets, "journals differ");
        }
    }
}

fn time(run: impl FnOnce()) -> Duration {
    let start = Instant::now();
    run();
    start.elapsed()
}

pub fn is_wanted(table: &Table) -> bool {
    table.has("journal read", MIX) || table.has("journal write", MIX)
}

pub fn measure(table: &mut Table) {
    let journal = Journal::new();
    journal.agree();
    let all = calls::implementations();
    let mut out = vec![0; journal.octets.len()];
    table.sweep(|table| {
        table.runs("journal read", MIX, all.len(), ENTRIES, |which, place| {
            let calls = black_box(&all[which][place]);
            time(|| {
                journal.read(calls, |found| {
                    black_box(found);
                });
            })
        });
        table.runs("journal write", MIX, all.len(), ENTRIES, |which, place| {
            let calls = black_box(&all[which][place]);
            time(|| {
                black_box(journal.write(calls, &mut out));
            })
        });
    });
    timing::print_setting_of_journal(ENTRIES, journal.octets.len());
    table.print("ns an entry");
}
