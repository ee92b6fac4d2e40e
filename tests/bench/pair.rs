//! Two full strips: the library's calls over both, and those of pair.cpp.
use crate::ffi::*;
use crate::figures::total;

extern "C" {
    fn pair_both(first: *const u64, second: *const u64, i: usize) -> usize;
    fn pair_either(first: *const u64, second: *const u64, i: usize) -> usize;
    fn pair_only_first(first: *const u64, second: *const u64, i: usize) -> usize;
    fn pair_differ(first: *const u64, second: *const u64, i: usize) -> usize;
    fn pair_find(first: *const u64, second: *const u64, k: usize) -> usize;
    fn pair_span(first: *const u64, second: *const u64, a: usize, b: usize) -> i64;
}

/// Which strokes are counted.
#[derive(Clone, Copy, PartialEq)]
pub enum Rule {
    Both,
    Either,
    OnlyFirst,
    Differ,
}
use Rule::*;

pub struct Pair {
    pub bits: u64,
    first: Vec<u64>,
    second: Vec<u64>,
    /// The totals of the two.
    pub totals: [u64; 2],
    /// The strokes judged differently.
    pub differing: usize,
}

// SAFETY, here and below: the pointers are to as many words as are named with them, or as hold the strokes asked for.
impl Pair {
    pub fn new(first: Vec<u64>, second: Vec<u64>) -> Pair {
        assert_eq!(first.len(), second.len());
        let differing = first.iter().zip(&second).map(|(x, y)| (x ^ y).count_ones() as usize).sum();
        let bits = 64 * first.len();
        let totals = [total(&first, bits), total(&second, bits)];
        Pair { bits: bits as u64, first, second, totals, differing }
    }

    /// The strip that a rule makes of the two, and a word more.
    pub fn joined(&self, rule: Rule) -> Vec<u64> {
        let join = |(x, y): (&u64, &u64)| match rule {
            Both => x & y,
            Either => x | y,
            OnlyFirst => x & !y,
            Differ => x ^ y,
        };
        self.first.iter().zip(&self.second).map(join).chain([0]).collect()
    }

    /// The two strips, each with a word more.
    pub fn strips(&self) -> [Vec<u64>; 2] {
        [&self.first, &self.second].map(|words| words.iter().copied().chain([0]).collect())
    }

    pub fn parts(&self) -> (*const u64, *const u64, usize) {
        (self.first.as_ptr(), self.second.as_ptr(), self.first.len())
    }

    pub fn count(&self, rule: Rule, i: usize) -> usize {
        let ((x, y, count), n, [s, t]) = (self.parts(), self.bits, self.totals);
        let call = match rule {
            Both => strip_pair_both,
            Either => strip_pair_either,
            OnlyFirst => strip_pair_only_first,
            Differ => strip_pair_differ,
        };
        unsafe { call(n, n, s, x, count, n, n, t, y, count, i as u64) as usize }
    }

    pub fn find(&self, k: usize) -> usize {
        let ((x, y, count), n, [s, t]) = (self.parts(), self.bits, self.totals);
        unsafe { strip_pair_find(n, n, s, x, count, n, n, t, y, count, k as u64) as usize }
    }

    pub fn span(&self, a: usize, b: usize) -> i64 {
        let ((x, y, count), n, [s, t]) = (self.parts(), self.bits, self.totals);
        unsafe { strip_pair_span(n, n, s, x, count, n, n, t, y, count, a as u64, b as u64) }
    }

    pub fn hand_count(&self, rule: Rule, i: usize) -> usize {
        let (x, y, _) = self.parts();
        let call = match rule {
            Both => pair_both,
            Either => pair_either,
            OnlyFirst => pair_only_first,
            Differ => pair_differ,
        };
        unsafe { call(x, y, i) }
    }

    pub fn hand_find(&self, k: usize) -> usize {
        let (x, y, _) = self.parts();
        unsafe { pair_find(x, y, k) }
    }

    pub fn hand_span(&self, a: usize, b: usize) -> i64 {
        let (x, y, _) = self.parts();
        unsafe { pair_span(x, y, a, b) }
    }
}
