//! Times one line of the table for the implementations in turn, each at several places, best of several rounds.

use crate::calls::{self, Calls, PLACES};
use crate::inputs::INPUTS;
use crate::lent::{Lent, Memory};
use std::hint::black_box;
use std::time::{Duration, Instant};

/// All lines are measured so many times over, so that what disturbs the machine for some seconds spoils no line.
const SWEEPS: usize = 6;
/// Rounds of each line in a sweep.
const ROUNDS: usize = 5;
/// About how long one implementation runs in one round: short, so that many rounds are undisturbed.
const ROUND: Duration = Duration::from_millis(1);

/// Does the call on input number 0 to 63, with the buffers lent.
trait Work: Fn(&Calls, &mut Lent, usize) -> usize {}

impl<T: Fn(&Calls, &mut Lent, usize) -> usize> Work for T {}

fn pass(work: &impl Work, calls: &Calls, lent: &mut Lent, passes: usize) -> Duration {
    let calls = black_box(calls);
    let start = Instant::now();
    for _ in 0..passes {
        for input in 0..INPUTS {
            black_box(work(calls, lent, input));
        }
    }
    start.elapsed()
}

fn passes_of_a_round(work: &impl Work, calls: &Calls, lent: &mut Lent) -> usize {
    let mut passes = 1;
    while pass(work, calls, lent, passes) < ROUND / 2 {
        passes *= 2;
    }
    passes
}

/// The geometric mean, so that a ratio of means is the mean of the ratios.
fn mean(times: [Duration; PLACES]) -> f64 {
    let logs: f64 = times.iter().map(|time| (time.as_nanos() as f64).ln()).sum();
    (logs / PLACES as f64).exp()
}

/// The best times of the implementations at each place, in rounds of so many calls.
struct Line {
    name: String,
    calls: usize,
    best: Vec<[Duration; PLACES]>,
}

impl Line {
    fn keep(&mut self, which: usize, place: usize, time: Duration) {
        let best = &mut self.best[which][place];
        *best = time.min(*best);
    }

    fn print(&self) {
        let times: Vec<f64> = self
            .best
            .iter()
            .map(|times| mean(*times) / self.calls as f64)
            .collect();
        print!("{}", self.name);
        times.iter().for_each(|time| print!(" {time:>9.1}"));
        times[1..]
            .iter()
            .for_each(|time| print!(" {:>9.2}", time / times[0]));
        println!();
    }
}

/// The lines that are measured: those whose name and mix have the word. Each sweep measures them in the same order.
pub struct Table<'a> {
    word: &'a str,
    lines: Vec<Line>,
    next: usize,
}

impl<'a> Table<'a> {
    pub fn new(word: &'a str) -> Self {
        Table {
            word,
            lines: vec![],
            next: 0,
        }
    }

    pub fn is_empty(&self) -> bool {
        self.lines.is_empty()
    }

    pub fn has(&self, what: &str, mix: &str) -> bool {
        format!("{what} {mix}").contains(self.word)
    }

    /// Measures all lines over and over.
    pub fn sweep(&mut self, mut lines: impl FnMut(&mut Self)) {
        for _ in 0..SWEEPS {
            self.next = 0;
            lines(self);
        }
    }

    /// The sweep's next line; in the first sweep a new one, of so many calls a round.
    fn next_line(
        &mut self,
        what: &str,
        mix: &str,
        implementations: usize,
        calls: impl FnOnce() -> usize,
    ) -> &mut Line {
        if self.next == self.lines.len() {
            self.lines.push(Line {
                name: format!("{what:<15} {mix:<22}"),
                calls: calls(),
                best: vec![[Duration::MAX; PLACES]; implementations],
            });
        }
        self.next += 1;
        &mut self.lines[self.next - 1]
    }

    /// Measures one line: `work` does the call on input number 0 to 63, with the buffers lent.
    pub fn line(
        &mut self,
        what: &str,
        mix: &str,
        work: impl Fn(&Calls, &mut Lent, usize) -> usize,
    ) {
        if !self.has(what, mix) {
            return;
        }
        let all = calls::implementations();
        let mut memory = Memory::new();
        let line = self.next_line(what, mix, all.len(), || {
            passes_of_a_round(&work, &all[0][0], &mut memory.at(0)) * INPUTS
        });
        let passes = line.calls / INPUTS;
        for round in 0..ROUNDS {
            for place in 0..PLACES {
                let mut lent = memory.at(place);
                for turn in 0..all.len() {
                    let which = (round + place + turn) % all.len();
                    let time = pass(&work, &all[which][place], &mut lent, passes);
                    line.keep(which, place, time);
                }
            }
        }
    }

    /// Measures one line of whole runs of so many implementations, of so many calls each, which take longer than a call: one round
    /// a sweep. `run` takes the time of a run of an implementation at a place.
    pub fn runs(
        &mut self,
        what: &str,
        mix: &str,
        implementations: usize,
        calls: usize,
        mut run: impl FnMut(usize, usize) -> Duration,
    ) {
        if !self.has(what, mix) {
            return;
        }
        let line = self.next_line(what, mix, implementations, || calls);
        for place in 0..PLACES {
            for which in 0..line.best.len() {
                line.keep(which, place, run(which, place));
            }
        }
    }

    pub fn print(&self, unit: &str) {
        let implementations = self.lines.first().map_or(0, |line| line.best.len());
        let names = &["rattle", "C", "Rust", "before"][..implementations];
        print!("{unit:<15} {:<22}", "mix");
        names.iter().for_each(|name| print!(" {name:>9}"));
        names
            .iter()
            .skip(1)
            .for_each(|name| print!(" {:>9}", format!("of {name}")));
        println!();
        self.lines.iter().for_each(Line::print);
    }
}

fn print_rounds(rounds: usize) {
    println!("mean of {PLACES} places in memory, at each the best of {rounds} rounds, all in turn");
}

pub fn print_setting() {
    print_rounds(SWEEPS * ROUNDS);
    println!(
        "one thread; buffers warm: {INPUTS} inputs a mix and one set of lent buffers a place, used again and again"
    );
    println!("of C and so on: its time divided by rattle's, so above 1 rattle is the faster\n");
}

pub fn print_setting_of_journal(entries: usize, octets: usize) {
    println!("\njournal: whole runs over {entries} entries in {octets} octets of memory;");
    print_rounds(SWEEPS);
}

pub fn print_setting_of_programs(octets: usize) {
    println!(
        "\nlisting: whole runs over {octets} octets, file in the page cache, output to /dev/null;"
    );
    print_rounds(SWEEPS);
}
