//! A first host: the frames of a payload whose octets the arguments give in hex.
//!
//!     cargo run --example first -- 01 02 03 04 05 06 07 AA 01 FF 00 A0

use std::error::Error;
use std::process::ExitCode;

fn show(words: impl Iterator<Item = String>) -> Result<(), Box<dyn Error>> {
    let octets: Result<Vec<u8>, _> = words.map(|word| u8::from_str_radix(&word, 16)).collect();
    let mut rows = [0; moult::MAX_NUMBERS];
    let mut bodies = [0; moult::MAX_OCTETS];
    let reading = moult::read(&octets?, &mut rows, &mut bodies)?;
    println!("{} frames, {}", reading.rows, reading.ticks);
    for frame in reading.frames(&rows, &bodies) {
        let frame = frame?;
        println!("{}: {:02X?}", frame.kind, frame.body);
    }
    Ok(())
}

fn main() -> ExitCode {
    match show(std::env::args().skip(1)) {
        Ok(()) => ExitCode::SUCCESS,
        Err(error) => {
            eprintln!("{error}");
            ExitCode::FAILURE
        }
    }
}
