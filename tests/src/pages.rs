//! Words lent in pages of which only some can be read. Any other access to them ends the process by a signal.
use std::ffi::{c_int, c_long, c_void};
use std::ops::Range;
use std::ptr::null_mut;

extern "C" {
    fn mmap(at: *mut c_void, bytes: usize, access: c_int, flags: c_int, file: c_int, offset: c_long) -> *mut c_void;
    fn mprotect(at: *mut c_void, bytes: usize, access: c_int) -> c_int;
    fn munmap(at: *mut c_void, bytes: usize) -> c_int;
}

const CLOSED: c_int = 0;
const READ: c_int = 1;
const WRITE: c_int = 2;

/// Private and anonymous.
const OWN_MEMORY: c_int = 0x22;

/// The words of a page.
pub const PAGE: usize = 512;

/// Words in memory of their own, between closed pages.
pub struct Pages {
    memory: *mut u64,
    size: usize,
    front: usize,
    count: usize,
}

impl Pages {
    /// These words. Only the pages that hold words of `open` can be read, and none can be written. A page starts at the word
    /// `border`: where that is the start of `open` no word before it can be read, where it is the end none from there on.
    pub fn new(words: &[u64], open: Range<usize>, border: usize) -> Pages {
        let front = 2 * PAGE - border % PAGE;
        let size = (front + words.len()).next_multiple_of(PAGE) + PAGE;
        // SAFETY: memory that nothing else has.
        let memory = unsafe { mmap(null_mut(), 8 * size, READ | WRITE, OWN_MEMORY, -1, 0) }.cast::<u64>();
        assert!(memory.addr() != usize::MAX, "no memory");
        // SAFETY: the memory has the words and the pages around them.
        unsafe { memory.add(front).copy_from_nonoverlapping(words.as_ptr(), words.len()) };
        let pages = Pages { memory, size, front, count: words.len() };
        pages.allow(0..size, CLOSED);
        if !open.is_empty() {
            pages.allow((front + open.start) / PAGE * PAGE..(front + open.end).next_multiple_of(PAGE), READ);
        }
        pages
    }

    /// The words, and how many they are.
    pub fn lend(&self) -> (*const u64, usize) {
        // SAFETY: as in `new`.
        (unsafe { self.memory.add(self.front) }, self.count)
    }

    /// Allows this access to whole pages, from a word of the memory to a word of it.
    fn allow(&self, part: Range<usize>, access: c_int) {
        assert!(part.end <= self.size);
        // SAFETY: the part lies in the memory; no reference is to it.
        let failed = unsafe { mprotect(self.memory.add(part.start).cast(), 8 * part.len(), access) };
        assert_eq!(failed, 0, "pages of another size");
    }
}

impl Drop for Pages {
    fn drop(&mut self) {
        // SAFETY: the memory is this one's alone.
        unsafe { munmap(self.memory.cast(), 8 * self.size) };
    }
}
