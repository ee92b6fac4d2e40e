//! Times clear and freeze of a full strip as an image's only row, at 2^20, 2^24 and 2^27 bits and three densities of
//! ones: the library; the library before a change, whose symbols begin with `before_`; memcpy of the words to where the
//! row's bits go; and what a hand can do (freeze.cpp), with popcnt where the machine has it. All stand in one run, in
//! alternating rounds, and each measurement follows one of the same kind that does not count. Prints lines of
//! tab-separated fields:
//!   time   power  density  freeze  column  lower quartile, median, upper quartile, in ns a call
//!   ratio  power  density  freeze  columns  the same, over the rounds
//!   place  power  density  freeze  column  least, median, greatest time over places of the stack, in ns
//!   short  length  density  freeze  column  as time, of strips of a few superblocks, in as few words as hold them
//!   short  length  density  freeze  columns  as ratio
//! `freeze ROUNDS POWER ..` takes other rounds and sizes. With `--cfg total_before` the handle of the library before the
//! change has a total too.
#[allow(dead_code)]
#[path = "../src/ffi.rs"]
mod ffi;
#[allow(dead_code)]
#[path = "../src/random.rs"]
mod random;

mod figures;
mod stack;

use ffi::{image_clear, image_freeze};
use figures::{quartiles, total, word};
use random::Random;
use stack::spread;
use std::hint::black_box;
use std::time::Instant;

extern "C" {
    fn before_image_clear(image: *mut u8, image_len: usize) -> u64;
    fn before_image_freeze(
        capacity: u64,
        length: u64,
        #[cfg(total_before)] total: u64,
        words: *const u64,
        words_len: usize,
        image: *mut u8,
        image_len: usize,
        label: u64,
    ) -> u64;
    fn hand_copy(words: *const u64, count: usize, image: *mut u8);
    fn hand_count(words: *const u64, count: usize) -> usize;
    fn hand_freeze(words: *const u64, count: usize, image: *mut u8, label: u32);
    fn hand_merged(words: *const u64, count: usize, image: *mut u8, label: u32);
    fn hand_popcnt(words: *const u64, count: usize, image: *mut u8, label: u32);
}

#[derive(Clone, Copy, PartialEq)]
enum Column {
    Before,
    Library,
    Memcpy,
    Copy,
    Count,
    Freeze,
    Merged,
    Popcnt,
}

const COLUMNS: [(Column, &str); 8] = [
    (Column::Before, "before"),
    (Column::Library, "library"),
    (Column::Memcpy, "memcpy"),
    (Column::Copy, "hand_copy"),
    (Column::Count, "hand_count"),
    (Column::Freeze, "hand_freeze"),
    (Column::Merged, "hand_merged"),
    (Column::Popcnt, "hand_popcnt"),
];

const LABEL: u64 = 7;

/// How many places of the stack are compared, and how many measurements are made at each, of which the quickest call counts.
const PLACES: usize = 32;
const MEASUREMENTS: usize = 30;

/// The lengths of short strips, and how many calls make a figure.
const LENGTHS: [usize; 10] = [1, 63, 511, 512, 513, 2048, 4095, 4096, 4097, 20_000];
const CALLS: usize = 200;

/// The bytes of an image with a row of so many bits.
fn image_size(bits: usize) -> usize {
    32 + bits / 256 + bits / 8
}

/// The time of a copy depends on which pages it goes over: the rounds take turns over so many strips and images, which are
/// the same for all sizes and densities.
const MEMORIES: usize = 8;

struct Memory {
    words: Vec<u64>,
    image: Vec<u8>,
}

impl Memory {
    fn new(bits: usize) -> Memory {
        Memory { words: vec![!0; bits / 64], image: vec![!0; image_size(bits)] }
    }

    /// A full strip, and room for its image.
    fn bench(&mut self, power: u32, share: usize) -> Bench<'_> {
        let (mut random, bits) = (Random::new(1), 1 << power);
        let (words, image) = (&mut self.words[..bits / 64], &mut self.image[..image_size(bits)]);
        words.fill_with(|| word(&mut random, share));
        Bench { length: bits, total: total(words, bits), words, image }
    }

    /// A strip of so many bits, half ones, in as few words as hold it, and room for its image.
    fn short(&mut self, length: usize) -> Bench<'_> {
        let mut random = Random::new(1);
        let size = 32 + 528 * length.div_ceil(4096);
        let (words, image) = (&mut self.words[..8 * length.div_ceil(512)], &mut self.image[..size]);
        words.fill_with(|| word(&mut random, 32));
        Bench { length, total: total(words, length), words, image }
    }
}

struct Bench<'a> {
    length: usize,
    total: u64,
    words: &'a [u64],
    image: &'a mut [u8],
}

impl Bench<'_> {
    /// One call, and its answer: where a freeze of the library puts the record, the ones of a count, or 0.
    // SAFETY: the pointers are to as many numbers as are named with them, the row fills the image, it has whole
    // superblocks but for the two libraries, and popcnt is called where the machine has it.
    fn call(&mut self, column: Column) -> usize {
        let (words, count, n, total) = (self.words.as_ptr(), self.words.len(), self.length as u64, self.total);
        let capacity = 64 * count as u64;
        let (image, size, label) = (self.image.as_mut_ptr(), self.image.len(), LABEL as u32);
        unsafe {
            match column {
                Column::Before => {
                    before_image_clear(image, size);
                    #[cfg(total_before)]
                    return before_image_freeze(capacity, n, total, words, count, image, size, LABEL) as usize;
                    #[cfg(not(total_before))]
                    return before_image_freeze(capacity, n, words, count, image, size, LABEL) as usize;
                }
                Column::Library => {
                    image_clear(image, size);
                    return image_freeze(capacity, n, total, words, count, image, size, LABEL) as usize;
                }
                Column::Count => return hand_count(words, count),
                Column::Memcpy => image.add(size - 8 * count).copy_from_nonoverlapping(words.cast(), 8 * count),
                Column::Copy => hand_copy(words, count, image),
                Column::Freeze => hand_freeze(words, count, image, label),
                Column::Merged => hand_merged(words, count, image, label),
                Column::Popcnt => hand_popcnt(words, count, image, label),
            }
        }
        0
    }

    /// Compares, before anything is timed, what the columns write, each over other bytes left in the image.
    fn compare(&mut self, columns: &[(Column, &str)]) {
        let (bits, mut first) = (self.image.len() - 8 * self.words.len(), Vec::new());
        for (place, (column, name)) in columns.iter().enumerate() {
            self.image.fill(0xa5 ^ place as u8);
            let answer = self.call(*column);
            match column {
                Column::Before => first = self.image.to_vec(),
                Column::Memcpy | Column::Copy => assert!(self.image[bits..] == first[bits..], "{name}: other bits"),
                Column::Count => assert_eq!(answer as u64, self.total, "{name}"),
                _ => assert!(*self.image == first, "{name}: another image"),
            }
            assert!(answer == 1 || !matches!(column, Column::Before | Column::Library), "{name}: another place");
        }
    }

    /// One measurement: nanoseconds for each call.
    fn measure(&mut self, column: Column) -> Vec<f64> {
        let count = ((1 << 24) / (64 * self.words.len())).clamp(1, 16);
        let mut figure = || {
            let began = Instant::now();
            black_box(self.call(column));
            began.elapsed().as_nanos() as f64
        };
        (0..count).map(|_| figure()).collect()
    }

    /// One round: each column after one of its own that does not count, now in this order, now in the other.
    fn round(&mut self, number: usize, columns: &[(Column, &str)], figures: &mut [Vec<Vec<f64>>]) {
        for y in 0..columns.len() {
            let y = if number % 2 == 0 { y } else { columns.len() - 1 - y };
            self.measure(columns[y].0);
            figures[y].push(self.measure(columns[y].0));
        }
    }
}

/// Prints the quartiles of some figures.
fn print(kind: &str, at: &str, what: &str, figures: Vec<f64>) {
    if let Some([a, b, c]) = quartiles(figures) {
        println!("{kind}\t{at}\tfreeze\t{what}\t{a:.3}\t{b:.3}\t{c:.3}");
    }
}

/// The library and `before`, of a short strip, in alternating rounds; a figure is the time of one of many calls.
fn short(memories: &mut [Memory], length: usize, rounds: usize) {
    let mut benches: Vec<_> = memories.iter_mut().map(|memory| memory.short(length)).collect();
    benches[0].compare(&COLUMNS[..2]);
    let mut figures = [Vec::new(), Vec::new()];
    spread(rounds, |number| {
        let bench = &mut benches[number / 2 % MEMORIES];
        for y in 0..4 {
            let y = (y + number) % 2;
            let began = Instant::now();
            (0..CALLS).for_each(|_| _ = black_box(bench.call(COLUMNS[y].0)));
            figures[y].push(began.elapsed().as_nanos() as f64 / CALLS as f64);
        }
    });
    let warm = |y: usize| figures[y].iter().skip(1).step_by(2).copied();
    let at = format!("{length}\t32/64");
    print("short", &at, COLUMNS[0].1, warm(0).collect());
    print("short", &at, COLUMNS[1].1, warm(1).collect());
    print("short", &at, "library / before", warm(1).zip(warm(0)).map(|(a, b)| a / b).collect());
}

fn run(memories: &mut [Memory], power: u32, share: usize, rounds: usize) {
    let mut benches: Vec<_> = memories.iter_mut().map(|memory| memory.bench(power, share)).collect();
    let has_popcnt = std::is_x86_feature_detected!("popcnt");
    let columns: Vec<_> = COLUMNS.into_iter().filter(|x| has_popcnt || x.0 != Column::Popcnt).collect();
    benches[0].compare(&columns);
    let mut figures = vec![Vec::new(); columns.len()];
    spread(rounds, |number| benches[number / 2 % MEMORIES].round(number, &columns, &mut figures));
    let at = format!("{power}\t{share}/64");
    for (y, (_, column)) in columns.iter().enumerate() {
        print("time", &at, column, figures[y].concat());
    }
    // The rounds' ratios. Memcpy's time over that of a column is the column's speed over memcpy's.
    let place = |name: &str| columns.iter().position(|x| x.1 == name);
    let others = columns.iter().filter(|x| x.0 != Column::Memcpy).map(|x| ("memcpy", x.1));
    for (over, under) in [("library", "before")].into_iter().chain(others) {
        let (Some(y), Some(z)) = (place(over), place(under)) else { continue };
        let medians = |y: usize| figures[y].iter().filter_map(|f| Some(quartiles(f.clone())?[1]));
        print("ratio", &at, &format!("{over} / {under}"), medians(y).zip(medians(z)).map(|(a, b)| a / b).collect());
    }
}

/// The library and `before`, half ones, from places of the stack that are spread over a page, which take their turn.
fn places(memory: &mut Memory, power: u32) {
    let mut bench = memory.bench(power, 32);
    let mut figures = [[f64::INFINITY; PLACES]; 2];
    for _ in 0..MEASUREMENTS {
        spread(PLACES, |place| {
            for (column, figures) in COLUMNS.iter().zip(&mut figures) {
                figures[place] = bench.measure(column.0).into_iter().fold(figures[place], f64::min);
            }
        });
    }
    for ((_, name), mut figures) in COLUMNS.iter().zip(figures) {
        figures.sort_by(f64::total_cmp);
        let [a, b, c] = [0, PLACES / 2, PLACES - 1].map(|x| figures[x]);
        println!("place\t{power}\t32/64\tfreeze\t{name}\t{a:.2}\t{b:.2}\t{c:.2}");
    }
}

fn main() {
    let numbers: Vec<usize> = std::env::args().skip(1).map(|x| x.parse().expect("a number")).collect();
    let rounds = numbers.first().copied().unwrap_or(200);
    let mut powers: Vec<u32> = numbers.iter().skip(1).map(|x| *x as u32).collect();
    if powers.is_empty() {
        powers = vec![20, 24, 27];
    }
    let most = powers.iter().map(|power| 1 << power).max().unwrap_or_default();
    let mut memories: Vec<_> = (0..MEMORIES).map(|_| Memory::new(most)).collect();
    for length in LENGTHS {
        short(&mut memories, length, rounds);
    }
    for power in powers {
        for share in [1, 32, 63] {
            run(&mut memories, power, share, rounds);
        }
        places(&mut memories[0], power);
    }
}
