//! Other libraries over the same bits, where they are installed: sdsl-lite (sdsl.cpp) and CRoaring (roaring.cpp).
use std::ffi::c_void;

extern "C" {
    fn sdsl_new(words: *const u64, count: usize) -> *mut c_void;
    fn sdsl_free(s: *mut c_void);
    fn sdsl_rank(s: *const c_void, i: usize) -> usize;
    fn sdsl_select(s: *const c_void, v: u64, k: usize) -> usize;
    fn sdsl_bytes(s: *const c_void, select: i32) -> usize;
    fn roaring_new(words: *const u64, count: usize) -> *mut c_void;
    fn roaring_delete(b: *mut c_void);
    fn roaring_rank(b: *mut c_void, i: usize) -> usize;
    fn roaring_find(b: *mut c_void, k: usize) -> usize;
    fn roaring_turn(b: *mut c_void, i: usize);
    fn roaring_flip(b: *mut c_void, i: usize);
    fn roaring_put(b: *mut c_void, i: usize);
    fn roaring_run(b: *mut c_void, a: usize, e: usize, v: u64);
    fn roaring_next(b: *mut c_void, i: usize) -> usize;
    fn roaring_bytes(b: *mut c_void) -> usize;
}

/// Static rank and select supports.
pub struct Sdsl(*mut c_void);

// SAFETY, here and below: the pointer is that of `new`, and positions and k are there.
impl Sdsl {
    pub fn new(words: &[u64]) -> Option<Sdsl> {
        let s = unsafe { sdsl_new(words.as_ptr(), words.len()) };
        (!s.is_null()).then_some(Sdsl(s))
    }

    pub fn rank(&self, i: usize) -> usize {
        unsafe { sdsl_rank(self.0, i) }
    }

    pub fn select(&self, v: u64, k: usize) -> usize {
        unsafe { sdsl_select(self.0, v, k) }
    }

    /// The bytes of the rank support, and of both select supports.
    pub fn bytes(&self) -> (usize, usize) {
        unsafe { (sdsl_bytes(self.0, 0), sdsl_bytes(self.0, 1)) }
    }
}

impl Drop for Sdsl {
    fn drop(&mut self) {
        unsafe { sdsl_free(self.0) }
    }
}

/// A compressed bitmap.
pub struct Roaring(*mut c_void);

impl Roaring {
    pub fn new(words: &[u64]) -> Option<Roaring> {
        let b = unsafe { roaring_new(words.as_ptr(), words.len()) };
        (!b.is_null()).then_some(Roaring(b))
    }

    pub fn rank(&self, i: usize) -> usize {
        unsafe { roaring_rank(self.0, i) }
    }

    pub fn select(&self, k: usize) -> usize {
        unsafe { roaring_find(self.0, k) }
    }

    pub fn successor(&self, i: usize) -> usize {
        unsafe { roaring_next(self.0, i) }
    }

    pub fn turn(&mut self, i: usize) -> usize {
        unsafe { roaring_turn(self.0, i) }
        0
    }

    pub fn flip(&mut self, i: usize) -> usize {
        unsafe { roaring_flip(self.0, i) }
        0
    }

    pub fn push(&mut self, i: usize, v: u64) -> usize {
        if v == 1 {
            unsafe { roaring_put(self.0, i) }
        }
        0
    }

    pub fn fill(&mut self, a: usize, b: usize, v: u64) -> usize {
        unsafe { roaring_run(self.0, a, b, v) }
        0
    }

    pub fn bytes(&self) -> usize {
        unsafe { roaring_bytes(self.0) }
    }
}

impl Drop for Roaring {
    fn drop(&mut self) {
        unsafe { roaring_delete(self.0) }
    }
}
