//! An image of one row: the library's calls on it, and those of row.cpp.
use crate::ffi::{image_clear, image_freeze, image_inspect, image_row_rank, image_row_select};
use crate::figures::total;

extern "C" {
    fn row_freeze(words: *const u64, count: usize, image: *mut u8, label: u32);
    fn row_inspect(record: *const u8) -> bool;
    fn row_rank(record: *const u8, length: usize, i: usize) -> usize;
    fn row_select(record: *const u8, length: usize, k: usize) -> usize;
}

const LABEL: u64 = 7;

pub struct Row {
    pub bits: usize,
    pub image: Vec<u8>,
    /// The total of the strip that is frozen.
    total: u64,
}

// SAFETY, here and below: the pointers are to as many numbers as are named with them.
impl Row {
    pub fn new(words: &[u64]) -> Row {
        let bits = 64 * words.len();
        let mut row = Row { bits, image: vec![0; 32 + bits / 256 + bits / 8], total: total(words, bits) };
        row.tree_freeze(words);
        let by_hand = row.image.clone();
        row.image.fill(0);
        row.freeze(words);
        assert!(row.image == by_hand, "the two records differ");
        row
    }

    fn record(&self) -> *const u8 {
        self.image[16..].as_ptr()
    }

    /// The row's bits.
    pub fn bytes(&self) -> &[u8] {
        &self.image[32 + self.bits / 256..]
    }

    pub fn freeze(&mut self, words: &[u64]) -> usize {
        let (image, size, n) = (self.image.as_mut_ptr(), self.image.len(), self.bits as u64);
        unsafe {
            image_clear(image, size);
            image_freeze(n, n, self.total, words.as_ptr(), words.len(), image, size, LABEL) as usize
        }
    }

    /// The words into the place of the row's bits.
    pub fn copy(&mut self, words: &[u64]) -> usize {
        let at = 32 + self.bits / 256;
        let bytes = unsafe { std::slice::from_raw_parts(words.as_ptr().cast(), 8 * words.len()) };
        self.image[at..].copy_from_slice(bytes);
        0
    }

    pub fn inspect(&self) -> usize {
        unsafe { image_inspect(self.image.as_ptr(), self.image.len()) as usize }
    }

    pub fn rank(&self, i: usize) -> usize {
        unsafe { image_row_rank(self.image.as_ptr(), self.image.len(), LABEL, 1, i as u64) as usize }
    }

    pub fn select(&self, k: usize) -> usize {
        unsafe { image_row_select(self.image.as_ptr(), self.image.len(), LABEL, 1, k as u64) as usize }
    }

    pub fn tree_freeze(&mut self, words: &[u64]) -> usize {
        unsafe { row_freeze(words.as_ptr(), words.len(), self.image.as_mut_ptr(), LABEL as u32) }
        0
    }

    pub fn tree_inspect(&self) -> usize {
        unsafe { usize::from(row_inspect(self.record())) }
    }

    pub fn tree_rank(&self, i: usize) -> usize {
        unsafe { row_rank(self.record(), self.bits, i) }
    }

    pub fn tree_select(&self, k: usize) -> usize {
        unsafe { row_select(self.record(), self.bits, k) }
    }
}
