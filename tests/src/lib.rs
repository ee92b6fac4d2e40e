//! The proved calls, to be compared with a plain model of them. The calls: those on words here, the one that seeks a burst in
//! `burst`, those on two strips' words in `pair`, those on a strip and its waiting strip in `waiting`, those on a record in
//! `record`, those on images in `image`, the queries in `query`, and scripts of calls in `script`. The model: strips and rows
//! in `model`, the image's bytes in `layout`, the merge of two images in `merge`, the paper machine in `paper`.
pub mod borders;
pub mod burst;
pub mod call;
pub mod cases;
pub mod draw;
pub mod ffi;
mod guarded;
pub mod image;
pub mod layout;
pub mod merge;
pub mod model;
pub mod pages;
pub mod pair;
pub mod paper;
pub mod query;
pub mod random;
pub mod record;
pub mod refusal;
pub mod script;
pub mod strip;
pub mod tally;
pub mod waiting;

use ffi::{strip_get, strip_predecessor, strip_select_in_word, strip_successor};
use refusal::{answer, Answer};

/// A handle, passed by value. The total is the number of ones.
#[derive(Clone, Copy, Debug, PartialEq, Eq)]
pub struct Handle {
    pub capacity: u64,
    pub length: u64,
    pub total: u64,
}

impl Handle {
    /// With a total of 0. The calls on words alone answer alike under every total up to the length.
    pub const fn new(capacity: u64, length: u64) -> Handle {
        Handle { capacity, length, total: 0 }
    }

    /// The handle among the numbers that a change writes.
    pub fn told(out: &[u64]) -> Handle {
        Handle { capacity: out[3], length: out[4], total: out[5] }
    }

    /// The same with another total.
    pub fn with(self, total: u64) -> Handle {
        Handle { total, ..self }
    }

    /// The number of v that length and total give.
    pub fn number_of(self, v: bool) -> u64 {
        if v {
            self.total
        } else {
            self.length - self.total
        }
    }
}

/// Words lent to the calls, between two guards. Each call asserts that it left all of them as they were.
pub struct Lent {
    memory: Vec<u64>,
    copy: Vec<u64>,
}

/// Three words, so that those lent start at no multiple of 16 bytes.
const GUARD: [u64; 3] = [0x5bd1_e995_ffff_0000, 0xa5a5_a5a5_5a5a_5a5a, 0x0000_ffff_6a09_e667];

impl Lent {
    pub fn new(words: &[u64]) -> Lent {
        let memory = [&GUARD, words, &GUARD].concat();
        let copy = memory.clone();
        Lent { memory, copy }
    }

    pub fn count(&self) -> usize {
        self.memory.len() - 2 * GUARD.len()
    }

    /// look(i)
    pub fn get(&mut self, h: Handle, i: u64) -> Answer {
        let (words, count) = self.lend();
        // SAFETY: `words` points to `count` words, which live through the call.
        let told = unsafe { strip_get(h.capacity, h.length, h.total, words, count, i) };
        self.unchanged();
        answer(told)
    }

    /// next(v, i)
    pub fn successor(&mut self, h: Handle, v: u64, i: u64) -> Answer {
        let (words, count) = self.lend();
        // SAFETY: as in `get`.
        let told = unsafe { strip_successor(h.capacity, h.length, h.total, words, count, v, i) };
        self.unchanged();
        answer(told)
    }

    /// prior(v, i)
    pub fn predecessor(&mut self, h: Handle, v: u64, i: u64) -> Answer {
        let (words, count) = self.lend();
        // SAFETY: as in `get`.
        let told = unsafe { strip_predecessor(h.capacity, h.length, h.total, words, count, v, i) };
        self.unchanged();
        answer(told)
    }

    // Through a mutable pointer, so that the compiler takes no word to be unchanged without looking.
    fn lend(&mut self) -> (*const u64, usize) {
        let count = self.count();
        (self.memory[GUARD.len()..].as_mut_ptr().cast_const(), count)
    }

    fn unchanged(&self) {
        assert!(self.memory == self.copy, "a lent word changed");
    }
}

/// The position of the k-th one of a word, or 64.
pub fn select_in_word(x: u64, k: u64) -> u64 {
    // SAFETY: the call takes numbers only.
    unsafe { strip_select_in_word(x, k) }
}
