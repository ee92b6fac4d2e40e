//! Two images: the library's merge of them, and what it is held against, inspections of both and a copy of the result.
use crate::ffi::{image_clear, image_freeze, image_inspect, image_merge, image_record_size};
use crate::figures::{total, word};
use crate::random::Random;
use std::hint::black_box;
use std::ops::RangeInclusive;

/// The rows of each image; those of two fill all labels.
const ROWS: usize = 32;

/// The capacity of a strip is a multiple of this.
const BLOCK: usize = 512;

/// How many labels stand in both images, with equal rows, and the name in the results.
#[derive(Clone, Copy)]
pub struct Case {
    pub both: usize,
    pub name: &'static str,
}

pub const CASES: [Case; 3] = [
    Case { both: 0, name: "merge, none in both" },
    Case { both: ROWS / 2, name: "merge, half in both" },
    Case { both: ROWS, name: "merge, all in both" },
];

pub struct Merge {
    first: Vec<u8>,
    second: Vec<u8>,
    /// What the merge is to write, and where it writes it.
    result: Vec<u8>,
    third: Vec<u8>,
}

/// An image of rows of so many bits, half ones. Rows of one label are the same in all images.
// SAFETY, here and below: the pointers are to as many numbers as are named with them.
fn image(bits: usize, labels: RangeInclusive<usize>) -> Vec<u8> {
    let size = 16 + labels.clone().count() * unsafe { image_record_size(bits as u64) } as usize;
    let mut image = vec![0; size];
    unsafe { image_clear(image.as_mut_ptr(), size) };
    let capacity = bits.next_multiple_of(BLOCK);
    for label in labels {
        let mut random = Random::new(label as u64);
        let words: Vec<u64> = (0..capacity / 64).map(|_| word(&mut random, 32)).collect();
        let (n, t, count, to) = (bits as u64, total(&words, bits), words.len(), image.as_mut_ptr());
        unsafe { image_freeze(capacity as u64, n, t, words.as_ptr(), count, to, size, label as u64) };
    }
    image
}

impl Merge {
    /// Two images of rows of 2^power bits.
    pub fn new(power: u32, case: Case) -> Merge {
        let (bits, last) = (1 << power, 2 * ROWS - case.both);
        let [first, second, result] = [1..=ROWS, last - ROWS + 1..=last, 1..=last].map(|labels| image(bits, labels));
        let third = vec![!0; result.len()];
        Merge { first, second, result, third }
    }

    /// The bytes of each image, and of the result.
    pub fn bytes(&self) -> (usize, usize) {
        (self.first.len(), self.result.len())
    }

    pub fn library(&mut self) -> usize {
        let (a, b, to) = (&self.first, &self.second, &mut self.third);
        unsafe { image_merge(a.as_ptr(), a.len(), b.as_ptr(), b.len(), to.as_mut_ptr(), to.len()) as usize }
    }

    /// The rows of the two images.
    pub fn inspections(&self) -> usize {
        let inspect = |image: &[u8]| unsafe { image_inspect(image.as_ptr(), image.len()) as usize };
        inspect(&self.first) + inspect(&self.second)
    }

    /// The result to where the merge writes it.
    pub fn copy(&mut self) -> usize {
        black_box(&mut self.third).copy_from_slice(black_box(&self.result));
        0
    }

    /// Asserts that both images pass inspection, and that their merge is the image with the same rows frozen into it.
    pub fn compare(&mut self, case: Case) {
        assert_eq!(self.inspections(), 2 * ROWS);
        assert_eq!(self.library(), 2 * ROWS - case.both);
        assert!(self.third == self.result, "{}: another image", case.name);
    }
}
