//! The listing ("Listing"): payloads, each behind its length, in; a line for each out.

use crate::MAX_OCTETS;
use crate::payload::walk;
use std::io::{self, BufRead, ErrorKind, Read, Write};

fn octet(input: &mut impl BufRead) -> io::Result<Option<u8>> {
    let first = input.fill_buf()?.first().copied();
    if first.is_some() {
        input.consume(1);
    }
    Ok(first)
}

enum Length {
    Good(usize),
    Bad,
    End,
}

/// A length in one or two groups of seven bits, low group first, shortest form.
fn length(input: &mut impl BufRead) -> io::Result<Length> {
    let low = match octet(input)? {
        None => return Ok(Length::End),
        Some(low) if low < 128 => return Ok(Length::Good(low.into())),
        Some(low) => usize::from(low - 128),
    };
    let length = match octet(input)? {
        Some(high @ 1..=127) => low + 128 * usize::from(high),
        _ => return Ok(Length::Bad),
    };
    Ok(if length <= MAX_OCTETS {
        Length::Good(length)
    } else {
        Length::Bad
    })
}

/// Whether the input goes on so far.
fn filled(input: &mut impl Read, payload: &mut [u8]) -> io::Result<bool> {
    match input.read_exact(payload) {
        Ok(()) => Ok(true),
        Err(error) if error.kind() == ErrorKind::UnexpectedEof => Ok(false),
        Err(error) => Err(error),
    }
}

pub fn list(input: &mut impl BufRead, output: &mut impl Write) -> io::Result<()> {
    let mut buffer = [0; MAX_OCTETS];
    let mut lines = 0;
    let end = loop {
        let payload = match length(input)? {
            Length::Good(length) => &mut buffer[..length],
            Length::Bad => break "cut",
            Length::End => break "end",
        };
        if !filled(input, payload)? {
            break "cut";
        }
        lines += 1;
        match walk(payload) {
            Ok(walked) => writeln!(output, "{lines} ok {} {}", walked.frames, walked.ticks)?,
            Err(refusal) => writeln!(
                output,
                "{lines} refused {} {}",
                refusal.number, refusal.place
            )?,
        }
    };
    writeln!(output, "{end} {lines}")
}
