//! Times find, turn and add on full strips of 2^20, 2^24 and 2^27 bits, half ones and 1/1024, at random: the library;
//! and the library before a change, whose symbols begin with `before_`, twice, to know the noise. Both work on the same
//! record, in one run, in turns. Each measurement asks for fresh random places, and each round begins with calls that do
//! not count. The caller keeps the handle, and takes over the one that a change gives. Prints lines of tab-separated
//! fields:
//!   time   power  density  call  column  lower quartile, median, upper quartile, in ns a call
//!   ratio  power  density  call  columns  the same, over the rounds
//! `total ROUNDS POWER ..` takes other rounds and sizes. With `--cfg total_before` the handle of the library before the
//! change has a total too.
#[allow(dead_code)]
#[path = "../src/ffi.rs"]
mod ffi;
#[allow(dead_code)]
#[path = "../src/random.rs"]
mod random;

mod buffer;
#[allow(dead_code)]
mod figures;
mod stack;

use buffer::Buffer;
use ffi::*;
use figures::{quartiles, rare, total};
use random::Random;
use stack::spread;
use std::hint::black_box;
use std::time::Instant;

extern "C" {
    fn before_strip_push(
        capacity: u64,
        length: u64,
        #[cfg(total_before)] total: u64,
        words: *mut u64,
        words_len: usize,
        counters: *mut u32,
        counters_len: usize,
        v: u64,
        out: *mut u64,
        out_len: usize,
    );
    fn before_strip_flip(
        capacity: u64,
        length: u64,
        #[cfg(total_before)] total: u64,
        words: *mut u64,
        words_len: usize,
        counters: *mut u32,
        counters_len: usize,
        i: u64,
        out: *mut u64,
        out_len: usize,
    );
    fn before_strip_truncate(
        capacity: u64,
        length: u64,
        #[cfg(total_before)] total: u64,
        words: *mut u64,
        words_len: usize,
        counters: *mut u32,
        counters_len: usize,
        n: u64,
        out: *mut u64,
        out_len: usize,
    );
    fn before_strip_select(
        capacity: u64,
        length: u64,
        #[cfg(total_before)] total: u64,
        words: *const u64,
        words_len: usize,
        counters: *const u32,
        counters_len: usize,
        v: u64,
        k: u64,
    ) -> u64;
    fn before_strip_verify(
        capacity: u64,
        length: u64,
        #[cfg(total_before)] total: u64,
        words: *const u64,
        words_len: usize,
        counters: *const u32,
        counters_len: usize,
    ) -> u64;
}

/// The calls of each column in a round, and those of a figure.
const COUNT: usize = 10_000;
const PART: usize = 1000;

/// The ones are one of 2^power, and their share in the results.
const SHARES: [(u32, &str); 2] = [(1, "32/64"), (10, "1/1024")];

#[derive(Clone, Copy)]
enum Call {
    Find(u64),
    Turn,
    Add,
}
use Call::*;

const CALLS: [(Call, &str); 4] = [(Find(1), "find 1"), (Find(0), "find 0"), (Turn, "turn"), (Add, "add")];

const COLUMNS: [&str; 3] = ["before", "library", "before again"];

/// One column over another.
const RATIOS: [(usize, usize); 2] = [(1, 0), (2, 0)];

#[derive(Clone, Copy)]
struct Handle {
    capacity: u64,
    length: u64,
    total: u64,
}

/// A record and its handle. Where the library before has no total, a change of it leaves that of the handle.
struct Strip {
    handle: Handle,
    words: Buffer<u64>,
    counters: Buffer<u32>,
    out: [u64; 6],
}

impl Strip {
    /// Handle, words and counters, to be read.
    fn parts(&self) -> (Handle, *const u64, usize, *const u32, usize) {
        let (w, c) = (self.words.get(), self.counters.get());
        (self.handle, w.as_ptr(), w.len(), c.as_ptr(), c.len())
    }

    /// Handle, words, counters and `out`, to be lent.
    fn lend(&mut self) -> (Handle, *mut u64, usize, *mut u32, usize, *mut u64) {
        let (w, c) = (self.words.get_mut(), self.counters.get_mut());
        (self.handle, w.as_mut_ptr(), w.len(), c.as_mut_ptr(), c.len(), self.out.as_mut_ptr())
    }

    /// Takes over the handle that a change gave; gives the change's second value.
    fn take(&mut self, with_total: bool) -> u64 {
        self.handle.capacity = self.out[3];
        self.handle.length = self.out[4];
        if with_total {
            self.handle.total = self.out[5];
        }
        self.out[2]
    }
}

/// The calls of a library.
trait Library {
    fn select(strip: &Strip, v: u64, k: u64) -> u64;
    fn verify(strip: &Strip) -> u64;
    fn flip(strip: &mut Strip, i: u64) -> u64;
    fn push(strip: &mut Strip, v: u64) -> u64;
    fn truncate(strip: &mut Strip, n: u64) -> u64;
}

struct Before;
struct After;

/// How many numbers a change of the library before writes.
const OUT_BEFORE: usize = if cfg!(total_before) { 6 } else { 5 };

/// A call of the library before: its name, the handle, and the other arguments.
#[cfg(total_before)]
macro_rules! before {
    ($call:ident, $h:expr, $($rest:expr),*) => { $call($h.capacity, $h.length, $h.total, $($rest),*) };
}
#[cfg(not(total_before))]
macro_rules! before {
    ($call:ident, $h:expr, $($rest:expr),*) => { $call($h.capacity, $h.length, $($rest),*) };
}

// SAFETY, here and below: the pointers are to as many numbers as are named with them.
impl Library for Before {
    fn select(strip: &Strip, v: u64, k: u64) -> u64 {
        let (h, words, nw, counters, nc) = strip.parts();
        unsafe { before!(before_strip_select, h, words, nw, counters, nc, v, k) }
    }

    fn verify(strip: &Strip) -> u64 {
        let (h, words, nw, counters, nc) = strip.parts();
        unsafe { before!(before_strip_verify, h, words, nw, counters, nc) }
    }

    fn flip(strip: &mut Strip, i: u64) -> u64 {
        let (h, words, nw, counters, nc, out) = strip.lend();
        unsafe { before!(before_strip_flip, h, words, nw, counters, nc, i, out, OUT_BEFORE) };
        strip.take(cfg!(total_before))
    }

    fn push(strip: &mut Strip, v: u64) -> u64 {
        let (h, words, nw, counters, nc, out) = strip.lend();
        unsafe { before!(before_strip_push, h, words, nw, counters, nc, v, out, OUT_BEFORE) };
        strip.take(cfg!(total_before))
    }

    fn truncate(strip: &mut Strip, n: u64) -> u64 {
        let (h, words, nw, counters, nc, out) = strip.lend();
        unsafe { before!(before_strip_truncate, h, words, nw, counters, nc, n, out, OUT_BEFORE) };
        strip.take(cfg!(total_before))
    }
}

impl Library for After {
    fn select(strip: &Strip, v: u64, k: u64) -> u64 {
        let (h, words, nw, counters, nc) = strip.parts();
        unsafe { strip_select(h.capacity, h.length, h.total, words, nw, counters, nc, v, k) }
    }

    fn verify(strip: &Strip) -> u64 {
        let (h, words, nw, counters, nc) = strip.parts();
        unsafe { strip_verify(h.capacity, h.length, h.total, words, nw, counters, nc) }
    }

    fn flip(strip: &mut Strip, i: u64) -> u64 {
        let (h, words, nw, counters, nc, out) = strip.lend();
        unsafe { strip_flip(h.capacity, h.length, h.total, words, nw, counters, nc, i, out, 6) };
        strip.take(true)
    }

    fn push(strip: &mut Strip, v: u64) -> u64 {
        let (h, words, nw, counters, nc, out) = strip.lend();
        unsafe { strip_push(h.capacity, h.length, h.total, words, nw, counters, nc, v, out, 6) };
        strip.take(true)
    }

    fn truncate(strip: &mut Strip, n: u64) -> u64 {
        let (h, words, nw, counters, nc, out) = strip.lend();
        unsafe { strip_truncate(h.capacity, h.length, h.total, words, nw, counters, nc, n, out, 6) };
        strip.take(true)
    }
}

/// Nanoseconds for one call, a figure for each part of the queries.
fn time(queries: &[u64], mut call: impl FnMut(u64) -> u64) -> Vec<f64> {
    let mut figure = |part: &[u64]| {
        let began = Instant::now();
        let sum = part.iter().fold(0, |sum: u64, query| sum.wrapping_add(call(*query)));
        let took = began.elapsed().as_nanos() as f64;
        black_box(sum);
        took / part.len() as f64
    };
    queries.chunks(PART).map(|part| figure(part)).collect()
}

/// A full strip; its ones, its last words, which an add changes, and how rare its ones are.
struct Bench {
    strip: Strip,
    ones: u64,
    last: Vec<u64>,
    rare: u32,
    random: Random,
    forward: bool,
}

impl Bench {
    fn new(power: u32, rareness: u32) -> Bench {
        let (mut random, bits) = (Random::new(1), 1usize << power);
        let counters = unsafe { strip_counter_count(bits as u64) } as usize;
        let (mut words, counters) = (Buffer::new(bits / 64, 0, false), Buffer::new(counters, 0, false));
        words.get_mut().fill_with(|| rare(&mut random, rareness));
        let last = words.get()[(bits - COUNT) / 64..].to_vec();
        let handle = Handle { capacity: bits as u64, length: bits as u64, total: 0 };
        let ones = total(words.get(), bits);
        let strip = Strip { handle, words, counters, out: [0; 6] };
        let mut bench = Bench { strip, ones, last, rare: rareness, random, forward: false };
        bench.restore();
        bench
    }

    /// Makes the strip again what it was, where only its last words may differ.
    fn restore(&mut self) {
        let strip = &mut self.strip;
        let words = strip.words.get_mut();
        let first = words.len() - self.last.len();
        words[first..].copy_from_slice(&self.last);
        let (h, words, nw, counters, nc, out) = strip.lend();
        unsafe { strip_fill(h.capacity, h.capacity, h.total, words, nw, counters, nc, 0, 0, 0, out, 6) };
        strip.take(true);
        assert!(strip.out[..2] == [0, self.ones] && strip.handle.total == self.ones);
    }

    fn bit(&self, p: u64) -> u64 {
        self.strip.words.get()[p as usize / 64] >> (p % 64) & 1
    }

    /// Random queries of a call.
    fn queries(&mut self, call: Call, count: usize) -> Vec<u64> {
        let (random, rareness, bits) = (&mut self.random, self.rare, self.strip.handle.capacity);
        let mut query = || match call {
            Find(0) => random.number_below(bits - self.ones),
            Find(_) => random.number_below(self.ones),
            Turn => random.number_below(bits),
            Add => rare(random, rareness) >> 32 & 1,
        };
        (0..count).map(|_| query()).collect()
    }

    /// One measurement. What it turns it turns back, and what it adds it makes again what it was.
    fn measure<L: Library>(&mut self, call: Call, count: usize) -> Vec<f64> {
        let (q, strip) = (self.queries(call, count), &mut self.strip);
        match call {
            Find(v) => time(&q, |k| L::select(strip, v, k)),
            Turn => {
                let times = time(&q, |i| L::flip(strip, i));
                q.iter().for_each(|i| _ = L::flip(strip, *i));
                times
            }
            Add => {
                L::truncate(strip, strip.handle.capacity - count as u64);
                let times = time(&q, |v| L::push(strip, v));
                assert!(strip.out[0] == 0 && strip.handle.length == strip.handle.capacity);
                self.restore();
                times
            }
        }
    }

    fn column(&mut self, call: Call, column: usize, count: usize) -> Vec<f64> {
        match column {
            1 => self.measure::<After>(call, count),
            _ => self.measure::<Before>(call, count),
        }
    }

    /// One round of a call: reads the whole record, and makes as many calls of each column as do not count. Then the
    /// columns take turns, now in this order, now in the other: by parts, but for adds, before which a strip is cut.
    fn round(&mut self, call: Call) -> [Vec<f64>; COLUMNS.len()] {
        let (words, counters) = (self.strip.words.get(), self.strip.counters.get());
        black_box(words.iter().fold(0, |x, y| x ^ y));
        black_box(counters.iter().fold(0, |x, y| x ^ y));
        (0..COLUMNS.len()).for_each(|y| _ = self.column(call, y, COUNT));
        let count = if matches!(call, Add) { COUNT } else { PART };
        let mut figures = [const { Vec::new() }; COLUMNS.len()];
        for _ in 0..COUNT / count {
            self.forward = !self.forward;
            for y in 0..COLUMNS.len() {
                let y = if self.forward { y } else { COLUMNS.len() - 1 - y };
                figures[y].extend(self.column(call, y, count));
            }
        }
        figures
    }

    /// Asserts that both libraries find the record right.
    fn check(&self) {
        assert!(Before::verify(&self.strip) == self.ones && After::verify(&self.strip) == self.ones);
    }

    /// What a list of adds or turns answers, and the words that it leaves.
    fn changes<L: Library>(
        &mut self,
        queries: &[u64],
        change: fn(&mut Strip, u64) -> u64,
    ) -> (Vec<[u64; 5]>, Vec<u64>) {
        let strip = &mut self.strip;
        let mut answer = |query: u64| {
            change(strip, query);
            [0, 1, 2, 3, 4].map(|j| strip.out[j])
        };
        let answers = queries.iter().map(|query| answer(*query)).collect();
        let words = strip.words.get().to_vec();
        assert_eq!(L::verify(&self.strip), total(&words, 64 * words.len()));
        (answers, words)
    }

    /// Asserts that both libraries answer alike.
    fn compare(&mut self) {
        self.check();
        for v in [1, 0] {
            for k in self.queries(Find(v), COUNT) {
                let p = After::select(&self.strip, v, k);
                assert!(Before::select(&self.strip, v, k) == p && self.bit(p) == v);
            }
        }
        let turns = self.queries(Turn, COUNT);
        let after = self.changes::<After>(&turns, After::flip);
        assert_eq!(self.strip.handle.total, total(&after.1, 64 * after.1.len()));
        self.changes::<After>(&turns, After::flip);
        assert!(self.changes::<Before>(&turns, Before::flip) == after);
        self.changes::<Before>(&turns, Before::flip);
        self.check();
        let (adds, length) = (self.queries(Add, COUNT), self.strip.handle.capacity - COUNT as u64);
        After::truncate(&mut self.strip, length);
        let after = self.changes::<After>(&adds, After::push);
        self.restore();
        Before::truncate(&mut self.strip, length);
        assert!(self.changes::<Before>(&adds, Before::push) == after);
        self.restore();
        self.check();
    }

    /// Rounds of all calls and columns, from many places of the stack; prints the figures under their place.
    fn run(&mut self, at: &str, rounds: usize) {
        let mut figures = vec![vec![Vec::new(); COLUMNS.len()]; CALLS.len()];
        spread(rounds, |_| {
            for ((call, _), figures) in CALLS.iter().zip(&mut figures) {
                for (figures, round) in figures.iter_mut().zip(self.round(*call)) {
                    figures.push(round);
                }
            }
        });
        for ((_, name), figures) in CALLS.iter().zip(&figures) {
            for (column, figures) in COLUMNS.iter().zip(figures) {
                print("time", at, name, column, figures.concat());
            }
            let medians = |y: usize| figures[y].iter().filter_map(|f| Some(quartiles(f.clone())?[1]));
            for (y, z) in RATIOS {
                let ratios = medians(y).zip(medians(z)).map(|(a, b)| a / b).collect();
                print("ratio", at, name, &format!("{} / {}", COLUMNS[y], COLUMNS[z]), ratios);
            }
        }
    }
}

/// Prints the quartiles of some figures.
fn print(kind: &str, at: &str, name: &str, what: &str, figures: Vec<f64>) {
    if let Some([a, b, c]) = quartiles(figures) {
        println!("{kind}\t{at}\t{name}\t{what}\t{a:.3}\t{b:.3}\t{c:.3}");
    }
}

fn main() {
    let numbers: Vec<usize> = std::env::args().skip(1).map(|x| x.parse().expect("a number")).collect();
    let rounds = numbers.first().copied().unwrap_or(200);
    let mut powers: Vec<u32> = numbers.iter().skip(1).map(|x| *x as u32).collect();
    if powers.is_empty() {
        powers = vec![20, 24, 27];
    }
    for power in powers {
        for (rareness, share) in SHARES {
            let mut bench = Bench::new(power, rareness);
            bench.compare();
            bench.run(&format!("{power}\t{share}"), rounds);
            bench.check();
        }
    }
}
