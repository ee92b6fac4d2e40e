//! Full strips that hold no burst: the library's search for one, and those of burst.cpp and scan.rs.
use crate::ffi::*;
use crate::figures::{total, word};
use crate::random::Random;
use crate::scan;

extern "C" {
    fn burst_start(words: *const u64, length: usize, w: usize, m: usize) -> usize;
}

/// The library's answer where there is no window.
const NOT_FOUND: u64 = (1 << 32) + 6;

/// Every other bit; and eight ones of these.
const ALTERNATING: u64 = 0x5555_5555_5555_5555;
const THIN: u64 = 0x5555;

/// The words of a strip.
#[derive(Clone, Copy)]
pub enum Words {
    /// With so many ones of 64, at random.
    Random(usize),
    /// Alternating bits: a window of even width has ones in half of it.
    Alternating,
    /// The same, but each word thin or not, at random.
    Thinned,
}

/// A strip, the window sought on it, and its share of ones and its name in the results.
#[derive(Clone, Copy)]
pub struct Case {
    pub words: Words,
    pub w: usize,
    pub m: usize,
    pub share: &'static str,
    pub name: &'static str,
}

/// Those in which a search that goes by the ones of words passes most of them, then those in which it passes few.
pub const CASES: [Case; 6] = [
    Case { words: Words::Random(32), w: 1000, m: 600, share: "32/64", name: "burst, 600 of 1,000" },
    Case { words: Words::Random(1), w: 1000, m: 60, share: "1/64", name: "burst, 60 of 1,000" },
    Case { words: Words::Alternating, w: 1000, m: 501, share: "32/64", name: "burst, 501 of 1,000" },
    Case { words: Words::Alternating, w: 64, m: 33, share: "32/64", name: "burst, 33 of 64" },
    Case { words: Words::Alternating, w: 65_536, m: 32_769, share: "32/64", name: "burst, 32,769 of 65,536" },
    Case { words: Words::Thinned, w: 64, m: 33, share: "20/64", name: "burst, 33 of 64" },
];

pub struct Burst {
    pub bits: usize,
    pub case: Case,
    /// The strip, and a word more.
    words: Vec<u64>,
    total: u64,
}

// SAFETY, here and below: the pointers are to as many words as are named with them, or as hold the length.
impl Burst {
    pub fn new(power: u32, case: Case) -> Burst {
        let (bits, mut random) = (1 << power, Random::new(1));
        let mut next = || match case.words {
            Words::Random(share) => word(&mut random, share),
            Words::Thinned if random.below(2) == 0 => THIN,
            _ => ALTERNATING,
        };
        Burst::over(bits, case, (0..bits / 64).map(|_| next()).chain([0]).collect())
    }

    fn over(bits: usize, case: Case, words: Vec<u64>) -> Burst {
        Burst { bits, case, total: total(&words, bits), words }
    }

    /// The start of a window with at least m ones, or the number of bits.
    pub fn library(&self, m: usize) -> usize {
        let (n, total, words, count) = (self.bits as u64, self.total, self.words.as_ptr(), self.bits / 64);
        let answer = unsafe { strip_burst(n, n, total, words, count, self.case.w as u64, m as u64) };
        if answer == NOT_FOUND {
            self.bits
        } else {
            answer as usize
        }
    }

    pub fn hand(&self, m: usize) -> usize {
        unsafe { burst_start(self.words.as_ptr(), self.bits, self.case.w, m) }
    }

    pub fn sliding(&self, m: usize) -> usize {
        scan::window(&self.words[..self.bits / 64], self.case.w, m)
    }

    /// The ones before i.
    pub fn ones(&self, i: usize) -> usize {
        scan::rank(&self.words, i)
    }

    /// The same with a window of ones alone, and a zero on each side of it.
    fn with_ones(&self, start: usize) -> Burst {
        let (mut words, end) = (self.words.clone(), start + self.case.w);
        let beside = [start.wrapping_sub(1), end].into_iter().filter(|p| *p < self.bits);
        (start..end).for_each(|p| words[p / 64] |= 1 << (p % 64));
        beside.for_each(|p| words[p / 64] &= !(1 << (p % 64)));
        Burst::over(self.bits, self.case, words)
    }

    /// Asserts that all agree: there is no window; and where there is one, since fewer ones are sought or more are there,
    /// the library's start is that of a window that serves, the others' that of the first.
    pub fn compare(&self) {
        let (bits, Case { w, m, .. }) = (self.bits, self.case);
        assert!([self.library(m), self.hand(m), self.sliding(m)] == [bits; 3]);
        let serves = |burst: &Burst, m: usize| {
            let (answer, first) = (burst.library(m), burst.sliding(m));
            assert_eq!(burst.hand(m), first);
            assert_eq!(answer < bits, first < bits);
            assert!(answer == bits || answer + w <= bits && burst.ones(answer + w) - burst.ones(answer) >= m);
        };
        [1, m / 2, m - 1].into_iter().for_each(|m| serves(self, m));
        for start in [0, bits / 3, bits - w] {
            let burst = self.with_ones(start);
            serves(&burst, m);
            assert_eq!(burst.library(w), start);
        }
    }
}
