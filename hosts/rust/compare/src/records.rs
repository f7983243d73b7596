//! Packet records: runs of operations, legal and refused, compared behind each operation.

use crate::both::{Operation, Record};
use crate::prng::Prng;
use crate::{Met, raw, whole};
use second::kinds::Kind;
use second::{MAX_FRAMES, MAX_OCTETS};

const RUNS: usize = 60_000;
const LONG_RUNS: usize = 60;
const MADE_UP: usize = 20_000;

/// Indices that no record has.
const FAR: [usize; 5] = [MAX_FRAMES, 1 << 8, 1 << 16, 1 << 32, usize::MAX];

/// The same operation on the second implementation's record.
pub fn operate(record: &mut second::Record, operation: Operation) -> Result<(), second::Refusal> {
    match operation {
        Operation::Push(kind, tc) => record.push(kind, tc),
        Operation::Pop => record.pop(),
        Operation::Replace(row, kind, tc) => record.replace(row, kind, tc),
    }
}

/// All of a record, its unused places too, as the second implementation's rows make it.
pub fn wanted(record: &second::Record) -> raw::Record {
    let mut numbers = [0; 2 * MAX_FRAMES];
    let mut starts = [0; MAX_FRAMES];
    numbers[..record.numbers().len()].copy_from_slice(record.numbers());
    for (row, place) in starts.iter_mut().enumerate().take(record.rows()) {
        *place = record.start(row).expect("a row that there is") as u16;
    }
    raw::Record {
        numbers,
        starts,
        rows: record.rows(),
        octets: record.octets(),
        ticks: record.ticks() as u32,
    }
}

/// What it says of a row, there or not.
pub fn compare_row(record: &Record, second: &second::Record, row: usize) {
    assert_eq!(record.row(row), whole(second.row(row)), "row {row}");
    assert_eq!(record.start(row), whole(second.start(row)), "start {row}");
}

/// A run of operations from the empty record, compared behind each.
fn compare(run: &[Operation], met: &mut Met) {
    let (mut record, mut second) = (Record::new(), second::Record::default());
    for (i, operation) in run.iter().enumerate() {
        let got = record.operate(*operation);
        let answer = whole(operate(&mut second, *operation));
        assert_eq!(got, answer, "operation {i} of {run:?}");
        assert_eq!(*record.all(), wanted(&second), "behind {i} of {run:?}");
        met.note(answer.0);
    }
    for row in (0..=second.rows()).chain(FAR) {
        compare_row(&record, &second, row);
    }
}

fn a_tc(kind: u16, prng: &mut Prng) -> u16 {
    match kind {
        _ if prng.one_in(16) => prng.pick(&[0, 1, 14, 78, 255, 256, 271, 65535]),
        5 => prng.within(1, 255) as u16,
        6 => prng.within(15, 77) as u16,
        _ => 0,
    }
}

/// A row of mostly one rate.
fn a_row(plain: u16, prng: &mut Prng) -> (u16, u16) {
    let kind = match prng.below(16) {
        0 => prng.pick(&[0, 7, 9, 255, 256, 257, 65535]),
        1 => 4,
        2 => prng.within(1, 6) as u16,
        3..=6 if plain == 1 => prng.within(5, 6) as u16,
        _ => plain,
    };
    (kind, a_tc(kind, prng))
}

fn an_operation(plain: u16, rows: usize, prng: &mut Prng) -> Operation {
    let (kind, tc) = a_row(plain, prng);
    match prng.below(8) {
        0 => Operation::Pop,
        1 if prng.one_in(4) => Operation::Replace(prng.pick(&FAR), kind, tc),
        1 | 2 => Operation::Replace(prng.below(rows + 1), kind, tc),
        _ => Operation::Push(kind, tc),
    }
}

#[test]
fn runs() {
    let mut prng = Prng::new(91);
    let mut met = Met::default();
    for _ in 0..RUNS {
        let plain = prng.pick(&[1, 1, 2, 3]);
        let length = prng.below(20);
        let run: Vec<_> = (0..length)
            .map(|i| an_operation(plain, i / 2, &mut prng))
            .collect();
        compare(&run, &mut met);
    }
    met.at_least(1_000, &[0, 6, 8, 12, 13]);
}

/// Packets that fill up to one of their limits, and operations there.
#[test]
fn long_runs() {
    let mut prng = Prng::new(92);
    let mut met = Met::default();
    for _ in 0..LONG_RUNS {
        let (kind, tc) = prng.pick(&[(1, 0), (2, 0), (3, 0), (5, 14), (5, 15), (5, 255), (6, 20)]);
        let wire = Kind::of(kind)
            .expect("a kind that there is")
            .wire_octets(tc);
        let full = (MAX_OCTETS / wire).min(MAX_FRAMES);
        let mut run = vec![Operation::Push(kind, tc); full + prng.below(2)];
        let plain = if kind < 4 { kind } else { 1 };
        run.extend((0..30).map(|_| an_operation(plain, full, &mut prng)));
        compare(&run, &mut met);
    }
    met.at_least(50, &[0, 1, 12]);
}

/// Every row of a packet replaced by one of each kind.
#[test]
fn every_row() {
    let mut prng = Prng::new(93);
    let mut met = Met::default();
    for plain in [1, 2, 3] {
        for rows in 0..6 {
            for row in 0..=rows {
                for kind in 0..=7 {
                    let tc = if kind == 5 || kind == 6 { 20 } else { 0 };
                    let mut run = vec![Operation::Push(plain, 0); rows];
                    if prng.one_in(2) {
                        run.push(Operation::Push(4, 0));
                    }
                    run.push(Operation::Replace(row, kind, tc));
                    run.push(an_operation(plain, rows, &mut prng));
                    compare(&run, &mut met);
                }
            }
        }
    }
    met.at_least(30, &[0, 6, 8, 12]);
}

/// What was done is undone: a row taken and dropped, a row replaced and put back.
#[test]
fn undone() {
    let mut prng = Prng::new(94);
    for _ in 0..RUNS / 10 {
        let plain = prng.pick(&[1, 2, 3]);
        let mut record = moult::Record::new();
        for _ in 0..prng.below(9) {
            let (kind, tc) = a_row(plain, &mut prng);
            let before = record.clone();
            match record.push(kind.into(), tc) {
                Ok(()) => {
                    let mut popped = record.clone();
                    popped.pop().expect("a row that was taken");
                    assert_eq!(popped, before);
                }
                Err(_) => assert_eq!(record, before),
            }
            let row = prng.below(record.rows() + 1);
            let before = (record.clone(), record.row(row));
            let (kind, tc) = a_row(plain, &mut prng);
            let mut replaced = record.clone();
            if replaced.replace(row, kind.into(), tc).is_ok() {
                let (kind, tc) = before.1.expect("the row that was replaced");
                let back = replaced.replace(row, kind, tc);
                back.expect("the row that stood there");
            }
            assert_eq!(replaced, before.0);
        }
    }
}

/// Records that no operation made: there is no fault, and a refusal changes nothing.
#[test]
fn made_up() {
    let mut prng = Prng::new(95);
    for _ in 0..MADE_UP {
        let mut record = raw::record_empty();
        for _ in 0..prng.below(4) {
            record = raw::record_push(record, 1, 0).record;
        }
        match prng.below(5) {
            0 => record.rows = prng.pick(&[1, 199, 200, 201, 1 << 63, usize::MAX]),
            1 => record.octets = prng.pick(&[1399, 1400, 1401, 1 << 32, usize::MAX]),
            2 => record.ticks = prng.pick(&[1, 144_000, 144_001, u32::MAX - 100, u32::MAX]),
            3 => {
                record.numbers = std::array::from_fn(|_| prng.next() as u16);
                record.rows = prng.below(202);
            }
            _ => record.starts = std::array::from_fn(|_| prng.next() as u16),
        }
        let (kind, tc) = a_row(1, &mut prng);
        let row = prng.pick(&[0, 1, 199, 200, usize::MAX]);
        for change in [
            raw::record_push(record, kind, tc),
            raw::record_pop(record),
            raw::record_replace(record, row, kind, tc),
        ] {
            assert!(change.number == 0 || change.record == record);
        }
        raw::record_rows(record);
        raw::record_octets(record);
        raw::record_ticks(record);
        raw::record_row(record, row);
        raw::record_start(record, row);
    }
}
