//! Lent buffers with guards in front and behind.

use crate::prng::Prng;

/// Places of guard on either side; the part lent starts at a place that varies, so that calls see
/// every alignment.
const GUARD: usize = 24;

#[derive(Clone, Debug, PartialEq)]
pub struct Lent<T> {
    memory: Vec<T>,
    before: Vec<T>,
    start: usize,
    length: usize,
}

impl<T: Copy + PartialEq + std::fmt::Debug> Lent<T> {
    /// A buffer of `length` places, it and its guards filled from `draw`.
    pub fn new(length: usize, prng: &mut Prng, draw: fn(&mut Prng) -> T) -> Lent<T> {
        let start = GUARD + prng.below(8);
        let fill = [draw(prng), draw(prng), draw(prng)];
        let all = start + length + GUARD;
        let memory: Vec<T> = (0..all).map(|i| fill[i % 3]).collect();
        let before = memory.clone();
        Lent {
            memory,
            before,
            start,
            length,
        }
    }

    /// A buffer that holds `contents`.
    pub fn holding(contents: &[T], prng: &mut Prng, draw: fn(&mut Prng) -> T) -> Lent<T> {
        let mut lent = Lent::new(contents.len(), prng, draw);
        lent.part().copy_from_slice(contents);
        lent.before.clone_from(&lent.memory);
        lent
    }

    pub fn part(&mut self) -> &mut [T] {
        &mut self.memory[self.start..self.start + self.length]
    }

    pub fn shared(&self) -> &[T] {
        &self.memory[self.start..self.start + self.length]
    }

    /// The first places hold `written`, and all other memory, guards included, is as it was.
    #[track_caller]
    pub fn holds_only(&self, written: &[T]) {
        let end = self.start + written.len();
        assert_eq!(
            self.memory[..self.start],
            self.before[..self.start],
            "guard in front"
        );
        assert_eq!(&self.memory[self.start..end], written, "what was written");
        assert_eq!(
            self.memory[end..],
            self.before[end..],
            "beyond what was written"
        );
    }

    #[track_caller]
    pub fn unchanged(&self) {
        self.holds_only(&[]);
    }
}

pub fn octet(prng: &mut Prng) -> u8 {
    prng.octet()
}

pub fn number(prng: &mut Prng) -> u16 {
    prng.next() as u16
}
