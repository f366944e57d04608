//! How a call is measured, and the lines that are printed of it.

use std::hint::black_box;
use std::time::{Duration, Instant};

/// How a call is measured.
#[derive(Clone, Copy, PartialEq, Eq)]
pub enum Way {
    /// By number; lent memory as the last call left it, the Rust's logs or output emptied with their room kept.
    Reused,
    /// By number; lent memory zeroed before each call, the Rust's logs or output made anew.
    New,
    /// By a lent table, checked and indexed in each call, which the Rust indexes in each call; memory as in `Reused`.
    Lent,
}

pub const WAYS: [Way; 3] = [Way::Reused, Way::New, Way::Lent];

impl Way {
    pub fn words(self) -> &'static str {
        match self {
            Way::Reused => "number, reused",
            Way::New => "number, cleared",
            Way::Lent => "lent, reused",
        }
    }
}

/// A round of a measurement lasts about so long; the best of the rounds counts.
const ROUND: Duration = Duration::from_millis(8);
const ROUNDS: usize = 3;

/// A line of reading or writing is measured with buffers and stack in so many places, and the best of them counts for each
/// side: by where they happen to lie alone a short call takes a fifth more or less, and a copy of a long value up to five
/// times as long.
const PLACES: usize = 4;

/// What is held of the heap at a place, and so many octets more at each: what is made next lies elsewhere, whatever its
/// length.
const HELD: [usize; 4] = [1_040, 9_232, 66_576, 132_112];
const FURTHER: usize = 1_040;

/// The logarithms of the ratios of some lines, for their geometric mean.
#[derive(Default)]
struct Mean {
    sum: f64,
    lines: u32,
}

impl Mean {
    fn add(&mut self, ratio: f64) {
        self.sum += ratio.ln();
        self.lines += 1;
    }

    fn print(&self, what: &str, words: &str) {
        let ratio = (self.sum / f64::from(self.lines)).exp();
        println!("{what}, geometric mean of {:3} lines, {words:16} {ratio:>7.2}", self.lines);
    }
}

/// The lines of one kind of call, and their means: of each way, and of all.
pub struct Lines {
    what: &'static str,
    ways: Vec<(&'static str, Mean)>,
    all: Mean,
}

impl Lines {
    pub fn new(what: &'static str) -> Self {
        println!("{what:56} {:>7} {:16} {:>12} {:>12} {:>7}", "octets", "way", "ours", "Rust", "ratio");
        Self { what, ways: Vec::new(), all: Mean::default() }
    }

    /// Prints a line, and takes it into the means.
    pub fn line(&mut self, name: &str, octets: usize, way: &'static str, (our_time, rust_time): (f64, f64)) {
        let ratio = our_time / rust_time;
        let at = self.ways.iter().position(|(words, _)| *words == way).unwrap_or_else(|| {
            self.ways.push((way, Mean::default()));
            self.ways.len() - 1
        });
        self.ways[at].1.add(ratio);
        self.all.add(ratio);
        let (ours, rust) = (our_time * 1e9, rust_time * 1e9);
        println!("{name:56} {octets:>7} {way:16} {ours:>12.1} {rust:>12.1} {ratio:>7.2}");
    }

    /// Prints a line of a call that the Rust has no counterpart of.
    pub fn alone(&mut self, name: &str, octets: usize, way: &'static str, our_time: f64) {
        println!("{name:56} {octets:>7} {way:16} {:>12.1} {:>12} {:>7}", our_time * 1e9, "-", "-");
    }

    /// Prints the means.
    pub fn end(self) {
        println!();
        if self.ways.len() > 1 {
            self.ways.iter().for_each(|(words, mean)| mean.print(self.what, words));
        }
        if self.all.lines > 0 {
            self.all.print(self.what, "all");
            println!();
        }
    }
}

/// Seconds a call of each at the best of the places, where `times` makes its buffers anew for each, by its number.
pub fn at_places(mut times: impl FnMut(usize) -> (f64, f64)) -> (f64, f64) {
    let mut held = Vec::new();
    let mut shortest = (f64::MAX, f64::MAX);
    for place in 0..PLACES {
        held.extend(HELD.map(|octets| vec![1_u8; octets + place * FURTHER]));
        let (our_time, rust_time) = deeper(place, &mut || times(place));
        shortest = (shortest.0.min(our_time), shortest.1.min(rust_time));
    }
    shortest
}

/// What is held at a place between octets that are copied and where they are copied to.
pub fn apart(place: usize) -> Vec<u8> {
    vec![1; HELD[2] + place * FURTHER]
}

/// What it gives so many frames further down the stack.
#[inline(never)]
fn deeper(frames: usize, times: &mut dyn FnMut() -> (f64, f64)) -> (f64, f64) {
    let frame = black_box([0_u8; FURTHER]);
    let found = if frames == 0 { times() } else { deeper(frames - 1, times) };
    black_box(&frame);
    found
}

/// Seconds a call of each in the best of its rounds, which come in turn.
pub fn best(ours: &mut dyn FnMut(), rust: &mut dyn FnMut()) -> (f64, f64) {
    let (our_calls, rust_calls) = (calls(ours), calls(rust));
    let mut shortest = (f64::MAX, f64::MAX);
    for _ in 0..ROUNDS {
        shortest.0 = shortest.0.min(round(ours, our_calls));
        shortest.1 = shortest.1.min(round(rust, rust_calls));
    }
    shortest
}

/// The same of ours alone.
pub fn best_alone(ours: &mut dyn FnMut()) -> f64 {
    let calls = calls(ours);
    (0..ROUNDS).map(|_| round(ours, calls)).fold(f64::MAX, f64::min)
}

/// How many calls make a round.
fn calls(call: &mut dyn FnMut()) -> u32 {
    call();
    let once = round(call, 8).max(1e-8);
    (ROUND.as_secs_f64() / once).clamp(1.0, 1e6) as u32
}

/// Seconds a call, of so many.
fn round(call: &mut dyn FnMut(), calls: u32) -> f64 {
    let begun = Instant::now();
    for _ in 0..calls {
        call();
    }
    begun.elapsed().as_secs_f64() / f64::from(calls)
}
