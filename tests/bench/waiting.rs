//! A full strip and its waiting strip: the library's calls over both, and those of waiting.cpp.
use crate::ffi::*;
use crate::pair::{Pair, Rule};

#[repr(C)]
struct Counts {
    least: usize,
    most: usize,
}

#[repr(C)]
struct Places {
    earliest: usize,
    latest: usize,
}

extern "C" {
    fn waiting_count(words: *const u64, waiting: *const u64, i: usize) -> Counts;
    fn waiting_find(words: *const u64, waiting: *const u64, length: usize, k: usize) -> Places;
}

pub struct Waiting {
    pair: Pair,
    /// The misfires of the whole strip.
    pub least: usize,
    pub most: usize,
}

// SAFETY, here and below: the pointers are to as many words as are named with them, or as hold the strokes asked for;
// the library's numbers are as many as are named.
impl Waiting {
    pub fn new(words: Vec<u64>, waiting: Vec<u64>) -> Waiting {
        let count = |rule: fn(u64, u64) -> u64| {
            words.iter().zip(&waiting).map(|(x, y)| rule(*x, *y).count_ones() as usize).sum()
        };
        let (least, most) = (count(|x, y| x & !y), count(|x, y| x | y));
        Waiting { pair: Pair::new(words, waiting), least, most }
    }

    /// The strips with the fewest and with the most misfires, and a word more.
    pub fn outcomes(&self) -> [Vec<u64>; 2] {
        [Rule::OnlyFirst, Rule::Either].map(|rule| self.pair.joined(rule))
    }

    /// The least and the most misfires before i.
    pub fn count(&self, i: usize) -> (usize, usize) {
        let ((x, y, count), n, [s, t]) = (self.pair.parts(), self.pair.bits, self.pair.totals);
        let mut out = [0; 3];
        unsafe { strip_waiting_count(n, n, s, x, count, n, n, t, y, count, i as u64, out.as_mut_ptr(), out.len()) };
        assert!(out[0] == 0);
        (out[1] as usize, out[2] as usize)
    }

    /// The same by a pass for each.
    pub fn passes(&self, i: usize) -> (usize, usize) {
        (self.pair.count(Rule::OnlyFirst, i), self.pair.count(Rule::Either, i))
    }

    /// The earliest position, and the latest where every outcome has a k-th misfire.
    pub fn find(&self, k: usize) -> (usize, Option<usize>) {
        let ((x, y, count), n, [s, t]) = (self.pair.parts(), self.pair.bits, self.pair.totals);
        let mut out = [0; 4];
        unsafe { strip_waiting_find(n, n, s, x, count, n, n, t, y, count, k as u64, out.as_mut_ptr(), out.len()) };
        assert!(out[0] == 0);
        (out[1] as usize, (out[2] == 1).then_some(out[3] as usize))
    }

    pub fn hand_count(&self, i: usize) -> (usize, usize) {
        let (x, y, _) = self.pair.parts();
        let counts = unsafe { waiting_count(x, y, i) };
        (counts.least, counts.most)
    }

    pub fn hand_find(&self, k: usize) -> (usize, Option<usize>) {
        let ((x, y, _), bits) = (self.pair.parts(), self.pair.bits as usize);
        let places = unsafe { waiting_find(x, y, bits, k) };
        (places.earliest, Some(places.latest).filter(|p| *p < bits))
    }
}
