//! The library, through its wrapper and through its C ABI, beside the second Rust implementation
//! over many inputs, and on the recorded cases of tests/vectors. Tests only.
#![deny(unsafe_code)]
#![cfg(test)]

mod both;
mod fields;
mod guard;
mod journals;
mod json;
mod make;
mod payloads;
mod prng;
/// The C ABI as the wrapper declares it: the wrapper itself drops what its types have no place for.
#[path = "../../src/ffi.rs"]
mod raw;
mod records;
mod rfc8130;
mod rows;
mod sessions;
mod settings;
mod times;
mod vectors;

use both::Answer;
use second::Refusal;

/// The whole answer wanted of a function that fills one buffer, given what the second implementation
/// answered and the buffer that it was lent; and what is to stand in the library's.
fn wanted<T>(answer: Result<usize, Refusal>, mut lent: Vec<T>) -> (Answer<usize>, Vec<T>) {
    let answer = whole(answer);
    lent.truncate(answer.2);
    (answer, lent)
}

/// Number, place and value, whether accepted or refused.
fn whole<T: Default>(answer: Result<T, Refusal>) -> Answer<T> {
    match answer {
        Ok(value) => (0, 0, value),
        Err(refusal) => (refusal.number, refusal.place, T::default()),
    }
}

/// A length kept in 8 or in 16 bits is the same with and without these.
const LONGER: [usize; 2] = [1 << 8, 1 << 16];

fn lengthened<T: Copy>(list: &[T], by: usize, fill: T) -> Vec<T> {
    let mut longer = list.to_vec();
    longer.resize(list.len() + by, fill);
    longer
}

/// How often each refusal number was wanted: a comparison that never meets one shows nothing of it.
#[derive(Debug, Default)]
struct Met([usize; 20]);

impl Met {
    fn note(&mut self, number: u32) {
        self.0[number as usize] += 1;
    }

    fn at_least(&self, times: usize, numbers: &[usize]) {
        let seldom = numbers.iter().find(|number| self.0[**number] < times);
        assert_eq!(seldom, None, "met too seldom: {self:?}");
    }
}

#[test]
fn version() {
    let version = moult::version();
    let number = 10_000 * version.major + 100 * version.minor + version.patch;
    assert_eq!(number, raw::version());
}
