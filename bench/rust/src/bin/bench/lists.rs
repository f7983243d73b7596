//! The listing program beside a C and a Rust one: whole processes over one file.

use crate::calls::PLACES;
use crate::inputs::Mix;
use crate::timing::{self, Table};
use std::fs::{self, File};
use std::path::{Path, PathBuf};
use std::process::{Command, Stdio};
use std::time::{Duration, Instant};

const FILE_OCTETS: usize = 20_000_000;

/// The programs rattle's, C's and Rust's, each linked at several places.
pub struct Programs([[PathBuf; PLACES]; 3]);

impl Programs {
    /// Those of a folder, which are called NAME_PLACE.
    pub fn of(folder: &Path) -> Self {
        Programs(
            ["rattle", "c", "rust"]
                .map(|name| std::array::from_fn(|place| folder.join(format!("{name}_{place}")))),
        )
    }
}

fn length_prefix(length: usize) -> Vec<u8> {
    if length < 128 {
        return vec![length as u8];
    }
    vec![(length % 128 + 128) as u8, (length / 128) as u8]
}

/// The mix's payloads over and over; gives how many.
fn write_file(mix: &Mix, path: &Path) -> usize {
    let mut octets = vec![];
    let mut payloads = 0;
    while octets.len() < FILE_OCTETS {
        for packet in &mix.packets {
            octets.extend(length_prefix(packet.payload.len()));
            octets.extend(&packet.payload);
            payloads += 1;
        }
    }
    fs::write(path, octets).expect("the scratch file can be written");
    payloads
}

fn command(program: &Path, file: &Path) -> Command {
    let mut command = Command::new(program);
    command.stdin(File::open(file).expect("the scratch file can be read"));
    command
}

fn output(program: &Path, file: &Path) -> Vec<u8> {
    let output = command(program, file).output().expect("the program runs");
    assert!(output.status.success(), "{}", program.display());
    output.stdout
}

fn time(program: &Path, file: &Path) -> Duration {
    let mut command = command(program, file);
    let start = Instant::now();
    let status = command
        .stdout(Stdio::null())
        .status()
        .expect("the program runs");
    let taken = start.elapsed();
    assert!(status.success(), "{}", program.display());
    taken
}

/// A file of a mix's payloads.
struct Listed<'a> {
    mix: &'a str,
    file: PathBuf,
    payloads: usize,
}

/// The programs must write the same before any is timed.
fn agree(programs: &Programs, file: &Path) {
    let wanted = output(&programs.0[0][0], file);
    assert!(
        programs
            .0
            .iter()
            .flatten()
            .all(|program| output(program, file) == wanted),
        "listings differ"
    );
}

fn listed<'a>(mix: &'a Mix, programs: &Programs, file: PathBuf) -> Listed<'a> {
    let payloads = write_file(mix, &file);
    agree(programs, &file);
    Listed {
        mix: mix.name,
        file,
        payloads,
    }
}

/// Measures the listings of the mixes, whose files go to the folder.
pub fn measure(table: &mut Table, mixes: &[Mix], programs: &Programs, folder: &Path) {
    fs::create_dir_all(folder).expect("the scratch folder can be made");
    let files: Vec<Listed> = mixes
        .iter()
        .filter(|mix| table.has("listing", mix.name))
        .enumerate()
        .map(|(i, mix)| listed(mix, programs, folder.join(i.to_string())))
        .collect();
    table.sweep(|table| {
        for listed in &files {
            table.runs(
                "listing",
                listed.mix,
                programs.0.len(),
                listed.payloads,
                |which, place| time(&programs.0[which][place], &listed.file),
            );
        }
    });
}

pub fn print(table: &Table) {
    timing::print_setting_of_programs(FILE_OCTETS);
    table.print("ns a payload");
}
