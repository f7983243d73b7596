//! Packet records of 200 rows: made row by row, and the starts of all rows asked for, beside the starts added up each time.

use crate::calls::{self, Calls};
use crate::inputs::INPUTS;
use crate::timing::Table;
use second::MAX_FRAMES;
use second::abi::Record;

const MIX: &str = "200 frames";

/// The kind of every row of an input: 2400 or 600 bps.
fn kind(input: usize) -> u16 {
    [1, 3][input % 2]
}

fn pushed(calls: &Calls, kind: u16) -> Record {
    let mut record = calls.record_empty();
    for _ in 0..MAX_FRAMES {
        record = calls.record_push(record, kind, 0).record;
    }
    record
}

/// The sum of all starts, so that each is used.
fn kept(calls: &Calls, record: &Record) -> usize {
    (0..MAX_FRAMES)
        .map(|row| calls.record_start(*record, row).start)
        .sum()
}

/// The same, each start added up from the octets of the rows before it, which have no counts.
fn added_up(calls: &Calls, record: &Record) -> usize {
    let octets = |row: &[u16]| calls.body_octets(row[0], row[1]);
    let start = |row: usize| -> usize {
        let before = &record.numbers[..2 * row];
        before.chunks_exact(2).map(octets).sum()
    };
    (0..MAX_FRAMES).map(start).sum()
}

/// All implementations make the same record, at every place, of which the starts are the sums.
fn agree() {
    for input in 0..2 {
        let wanted = pushed(&calls::implementations()[0][0], kind(input));
        assert_eq!((wanted.rows, wanted.octets), (MAX_FRAMES, 7 * MAX_FRAMES));
        for calls in calls::implementations().into_iter().flatten() {
            assert_eq!(pushed(calls, kind(input)), wanted);
            assert_eq!(kept(calls, &wanted), added_up(calls, &wanted));
        }
    }
}

pub fn measure(table: &mut Table) {
    agree();
    let rattle = &calls::implementations()[0][0];
    let records: Vec<Record> = (0..INPUTS)
        .map(|input| pushed(rattle, kind(input)))
        .collect();
    table.sweep(|table| {
        table.line("starts kept", MIX, |calls, _, i| kept(calls, &records[i]));
        table.line("starts added up", MIX, |calls, _, i| {
            added_up(calls, &records[i])
        });
        table.line("record push", MIX, |calls, _, i| {
            pushed(calls, kind(i)).octets
        });
    });
}

pub fn print(table: &Table) {
    println!(
        "\nrecords: the starts of all 200 rows, asked of the record and added up from the rows each time;"
    );
    println!("200 rows taken one by one, of which C and Rust work out the record afresh each time");
    table.print("ns 200 rows");
}
