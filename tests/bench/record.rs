//! A full strip and its counters: the library's calls on it, and those of tree.cpp.
use crate::buffer::Buffer;
use crate::ffi::*;

extern "C" {
    fn tree_rank(c: usize, words: *const u64, counters: *const u32, i: usize) -> usize;
    fn tree_select(c: usize, words: *const u64, counters: *const u32, v: u64, k: usize) -> usize;
    fn tree_successor(n: usize, words: *const u64, v: u64, i: usize) -> usize;
    fn tree_flip(c: usize, words: *mut u64, counters: *mut u32, p: usize) -> usize;
    fn tree_push(c: usize, words: *mut u64, counters: *mut u32, p: usize, v: u64) -> usize;
    fn tree_fill(c: usize, n: usize, words: *mut u64, counters: *mut u32, a: usize, b: usize, v: u64) -> usize;
    fn tree_verify(c: usize, n: usize, words: *const u64, counters: *const u32) -> bool;
    fn checked_rank(
        c: usize,
        n: usize,
        t: usize,
        w: *const u64,
        nw: usize,
        x: *const u32,
        nx: usize,
        v: u64,
        i: usize,
    ) -> u64;
    fn checked_select(
        c: usize,
        n: usize,
        t: usize,
        w: *const u64,
        nw: usize,
        x: *const u32,
        nx: usize,
        v: u64,
        k: usize,
    ) -> u64;
    fn checked_flip(
        c: usize,
        n: usize,
        t: usize,
        w: *mut u64,
        nw: usize,
        x: *mut u32,
        nx: usize,
        i: usize,
        out: *mut u64,
        out_len: usize,
    );
    fn checked_push(
        c: usize,
        n: usize,
        t: usize,
        w: *mut u64,
        nw: usize,
        x: *mut u32,
        nx: usize,
        v: u64,
        out: *mut u64,
        out_len: usize,
    );
}

pub struct Record {
    pub bits: usize,
    words: Buffer<u64>,
    counters: Buffer<u32>,
    /// What the last change wrote; its last number is the total of the handle to go on with.
    out: [u64; 6],
}

// SAFETY, here and below: the pointers are to as many numbers as are named with them, or as the capacity has.
impl Record {
    pub fn new(words: &[u64], huge: bool) -> Record {
        let bits = 64 * words.len();
        let blocks = bits / 512;
        let height = (1..=3).find(|h| blocks <= 64usize.pow(*h)).unwrap();
        let nodes: usize = (1..=height).map(|t| blocks.div_ceil(64usize.pow(t))).sum();
        let counters = Buffer::new(72 * nodes, 0, huge);
        let mut record = Record { bits, words: Buffer::new(words.len(), 0, huge), counters, out: [0; 6] };
        record.restore(words);
        record
    }

    /// Makes the record that of these words.
    pub fn restore(&mut self, words: &[u64]) {
        self.words.get_mut().copy_from_slice(words);
        self.fill(0, 0, 0);
        assert_eq!(self.out[0], 0);
    }

    pub fn words(&self) -> &[u64] {
        self.words.get()
    }

    /// The total of the handle, which the functions of tree.cpp that check nothing do not move.
    fn total(&self) -> u64 {
        self.out[5]
    }

    /// Words, counters and `out`, to be lent.
    fn lend(&mut self) -> (*mut u64, usize, *mut u32, usize, *mut u64) {
        let (w, c, out) = (self.words.get_mut(), self.counters.get_mut(), &mut self.out);
        (w.as_mut_ptr(), w.len(), c.as_mut_ptr(), c.len(), out.as_mut_ptr())
    }

    fn parts(&self) -> (*const u64, usize, *const u32, usize) {
        let (w, c) = (self.words.get(), self.counters.get());
        (w.as_ptr(), w.len(), c.as_ptr(), c.len())
    }

    pub fn rank(&self, v: u64, i: usize) -> usize {
        let (words, nw, counters, nc) = self.parts();
        let n = self.bits as u64;
        unsafe { strip_rank(n, n, self.total(), words, nw, counters, nc, v, i as u64) as usize }
    }

    pub fn select(&self, v: u64, k: usize) -> usize {
        let (words, nw, counters, nc) = self.parts();
        let n = self.bits as u64;
        unsafe { strip_select(n, n, self.total(), words, nw, counters, nc, v, k as u64) as usize }
    }

    pub fn successor(&self, v: u64, i: usize) -> usize {
        let (words, nw, _, _) = self.parts();
        let n = self.bits as u64;
        unsafe { strip_successor(n, n, self.total(), words, nw, v, i as u64) as usize }
    }

    pub fn verify(&self) -> usize {
        let (words, nw, counters, nc) = self.parts();
        let n = self.bits as u64;
        unsafe { strip_verify(n, n, self.total(), words, nw, counters, nc) as usize }
    }

    pub fn push(&mut self, length: usize, v: u64) -> usize {
        let (capacity, n, total) = (self.bits as u64, length as u64, self.total());
        let (words, nw, counters, nc, out) = self.lend();
        unsafe { strip_push(capacity, n, total, words, nw, counters, nc, v, out, 6) }
        self.out[2] as usize
    }

    pub fn flip(&mut self, i: usize) -> usize {
        let (n, total) = (self.bits as u64, self.total());
        let (words, nw, counters, nc, out) = self.lend();
        unsafe { strip_flip(n, n, total, words, nw, counters, nc, i as u64, out, 6) }
        self.out[2] as usize
    }

    pub fn fill(&mut self, a: usize, b: usize, v: u64) -> usize {
        let (n, total) = (self.bits as u64, self.total());
        let (words, nw, counters, nc, out) = self.lend();
        unsafe { strip_fill(n, n, total, words, nw, counters, nc, a as u64, b as u64, v, out, 6) }
        self.out[1] as usize
    }

    pub fn truncate(&mut self, n: usize) {
        let (bits, total) = (self.bits as u64, self.total());
        let (words, nw, counters, nc, out) = self.lend();
        unsafe { strip_truncate(bits, bits, total, words, nw, counters, nc, n as u64, out, 6) }
    }

    pub fn tree_rank(&self, i: usize) -> usize {
        let (words, _, counters, _) = self.parts();
        unsafe { tree_rank(self.bits, words, counters, i) }
    }

    pub fn tree_select(&self, v: u64, k: usize) -> usize {
        let (words, _, counters, _) = self.parts();
        unsafe { tree_select(self.bits, words, counters, v, k) }
    }

    pub fn tree_successor(&self, v: u64, i: usize) -> usize {
        unsafe { tree_successor(self.bits, self.words().as_ptr(), v, i) }
    }

    pub fn tree_verify(&self) -> usize {
        let (words, _, counters, _) = self.parts();
        unsafe { usize::from(tree_verify(self.bits, self.bits, words, counters)) }
    }

    pub fn tree_push(&mut self, length: usize, v: u64) -> usize {
        let (words, _, counters, _, _) = self.lend();
        unsafe { tree_push(self.bits, words, counters, length, v) }
    }

    pub fn tree_flip(&mut self, i: usize) -> usize {
        let (words, _, counters, _, _) = self.lend();
        unsafe { tree_flip(self.bits, words, counters, i) }
    }

    pub fn tree_fill(&mut self, a: usize, b: usize, v: u64) -> usize {
        let (words, _, counters, _, _) = self.lend();
        unsafe { tree_fill(self.bits, self.bits, words, counters, a, b, v) }
    }

    pub fn checked_rank(&self, v: u64, i: usize) -> usize {
        let (words, nw, counters, nc) = self.parts();
        unsafe { checked_rank(self.bits, self.bits, self.total() as usize, words, nw, counters, nc, v, i) as usize }
    }

    pub fn checked_select(&self, v: u64, k: usize) -> usize {
        let (words, nw, counters, nc) = self.parts();
        unsafe { checked_select(self.bits, self.bits, self.total() as usize, words, nw, counters, nc, v, k) as usize }
    }

    pub fn checked_push(&mut self, length: usize, v: u64) -> usize {
        let (bits, total) = (self.bits, self.total() as usize);
        let (words, nw, counters, nc, out) = self.lend();
        unsafe { checked_push(bits, length, total, words, nw, counters, nc, v, out, 6) }
        self.out[2] as usize
    }

    pub fn checked_flip(&mut self, i: usize) -> usize {
        let (bits, total) = (self.bits, self.total() as usize);
        let (words, nw, counters, nc, out) = self.lend();
        unsafe { checked_flip(bits, bits, total, words, nw, counters, nc, i, out, 6) }
        self.out[2] as usize
    }
}
