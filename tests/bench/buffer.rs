//! Buffers of the benchmarks' records.
use std::alloc::{alloc, dealloc, Layout};

extern "C" {
    fn madvise(at: *mut u8, size: usize, advice: i32) -> i32;
}

/// Numbers that start a page of 2 MiB, in such pages where they are asked for and can be had.
pub struct Buffer<T> {
    at: *mut T,
    count: usize,
    layout: Layout,
}

impl<T: Copy> Buffer<T> {
    pub fn new(count: usize, zero: T, huge: bool) -> Buffer<T> {
        let page = 1 << 21;
        let layout = Layout::from_size_align((count * size_of::<T>()).next_multiple_of(page), page).unwrap();
        // SAFETY: the layout is not empty; the numbers are written before they are read.
        unsafe {
            let at: *mut T = alloc(layout).cast();
            assert!(!at.is_null());
            if huge {
                madvise(at.cast(), layout.size(), 14);
            }
            (0..count).for_each(|j| at.add(j).write(zero));
            Buffer { at, count, layout }
        }
    }

    pub fn get(&self) -> &[T] {
        unsafe { std::slice::from_raw_parts(self.at, self.count) }
    }

    pub fn get_mut(&mut self) -> &mut [T] {
        unsafe { std::slice::from_raw_parts_mut(self.at, self.count) }
    }
}

impl<T> Drop for Buffer<T> {
    fn drop(&mut self) {
        unsafe { dealloc(self.at.cast(), self.layout) }
    }
}
