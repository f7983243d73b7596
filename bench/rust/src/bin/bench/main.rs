//! Measures the library beside the second implementations, careful C and safe Rust that do the same work, and prints a table.

mod agree;
mod calls;
mod inputs;
mod journals;
mod lent;
mod lists;
mod records;
mod timing;

use inputs::{Mix, Small, mode};
use lists::Programs;
use std::path::PathBuf;
use timing::Table;

fn measure_packets(table: &mut Table, mix: &Mix) {
    let packets = &mix.packets;
    table.line("read", mix.name, |calls, lent, i| {
        calls.read(&packets[i].payload, lent.rows, lent.bodies).rows
    });
    table.line("write", mix.name, |calls, lent, i| {
        calls
            .write(&packets[i].rows, &packets[i].bodies, lent.out)
            .octets
    });
    table.line("count", mix.name, |calls, _, i| {
        calls.count(&packets[i].payload) as usize
    });
    table.line("packet ticks", mix.name, |calls, _, i| {
        calls.packet_ticks(&packets[i].payload).time
    });
    table.line("augmentation", mix.name, |calls, _, i| {
        calls
            .augmentation(&packets[i].payload, packets[i].row)
            .start
    });
    table.line("frame or", mix.name, |calls, _, i| {
        calls
            .frame_or(&packets[i].payload, packets[i].row, &[0; 7])
            .start
    });
}

fn measure_small(table: &mut Table, small: &Small) {
    table.line("unpack", small.name, |calls, lent, i| {
        calls.unpack(mode(i), &small.bodies[i], lent.fields).octets
    });
    for mode in 1..=3 {
        let mix = format!("{}, mode {mode}", small.name);
        table.line("unpack", &mix, |calls, lent, i| {
            calls.unpack(mode, &small.bodies[i], lent.fields).octets
        });
    }
    table.line("pack", small.name, |calls, lent, i| {
        calls.pack(mode(i), &small.fields[i], lent.out).octets
    });
    table.line("settings read", small.name, |calls, _, i| {
        usize::from(calls.settings_read(&small.texts[i]).settings.0[3])
    });
    table.line("settings write", small.name, |calls, lent, i| {
        calls.settings_write(small.settings[i], lent.out).octets
    });
}

fn measure_ptime(table: &mut Table, small: &[Small]) {
    table.line("ptime", "2400 bps", |calls, _, i| {
        calls.ptime(2400, i + 1).time
    });
    for small in small {
        table.line("ptime", small.name, |calls, _, i| {
            let (rate, frames) = small.timed[i];
            calls.ptime(rate, frames).time
        });
    }
}

fn main() {
    let paths: Vec<PathBuf> = std::env::args_os().skip(1).map(PathBuf::from).collect();
    let [lists, scratch, only @ ..] = &paths[..] else {
        eprintln!("usage: bench LISTS-FOLDER SCRATCH-FOLDER [WORD] (use `make bench`)");
        std::process::exit(2);
    };
    let mixes = inputs::mixes();
    let small = [inputs::small_legal(), inputs::small_damaged()];
    mixes.iter().for_each(agree::on_packets);
    small.iter().for_each(agree::on_small);
    let word = only.first().and_then(|word| word.to_str()).unwrap_or("");
    let mut table = Table::new(word);
    table.sweep(|table| {
        for mix in &mixes {
            measure_packets(table, mix);
        }
        for small in &small {
            measure_small(table, small);
        }
    });
    timing::print_setting();
    table.print("ns a call");
    let mut journal = Table::new(word);
    if journals::is_wanted(&journal) {
        journals::measure(&mut journal);
    }
    let mut kept = Table::new(word);
    records::measure(&mut kept);
    if !kept.is_empty() {
        records::print(&kept);
    }
    let mut listings = Table::new(word);
    if mixes.iter().any(|mix| listings.has("listing", mix.name)) {
        lists::measure(&mut listings, &mixes, &Programs::of(lists), scratch);
        lists::print(&listings);
    }
    let mut ptime = Table::new(word);
    ptime.sweep(|table| measure_ptime(table, &small));
    if !ptime.is_empty() {
        println!("\nptime, whose time is its call's, and which has no goal");
        ptime.print("ns a call");
    }
}
