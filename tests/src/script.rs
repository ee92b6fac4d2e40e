//! Buffers lent to scripts and to single calls of a script.
use crate::call::Call;
use crate::ffi::{strip_execute, strip_step};
use crate::guarded::Guarded;
use crate::record::UNTOUCHED;
use crate::Handle;

/// Words, counters and an image. Each call asserts that it wrote to nothing beside them and the numbers that it tells.
pub struct Buffers {
    words: Guarded<u64>,
    counters: Guarded<u32>,
    image: Guarded<u8>,
}

impl Buffers {
    pub fn new(words: &[u64], counters: &[u32], image: &[u8]) -> Buffers {
        Buffers {
            words: Guarded::new(words, 0xa5a5_a5a5_5a5a_5a5a),
            counters: Guarded::new(counters, 0x5a5a_a5a5),
            image: Guarded::new(image, 0xa5),
        }
    }

    pub fn words(&self) -> &[u64] {
        self.words.numbers()
    }

    pub fn counters(&self) -> &[u32] {
        self.counters.numbers()
    }

    pub fn image(&self) -> &[u8] {
        self.image.numbers()
    }

    /// Runs a script with `room` numbers for the answers: how many calls were run, and those numbers.
    pub fn execute(&mut self, script: &[u64], capacity: u64, clear_first: u64, room: usize) -> (u64, Vec<u64>) {
        let mut lent = Guarded::new(script, UNTOUCHED);
        let mut answers = Guarded::new(&vec![UNTOUCHED; room], UNTOUCHED);
        let ((words, nw), (counters, nc), (image, ni)) = (self.words.lend(), self.counters.lend(), self.image.lend());
        let ((calls, ns), (out, no)) = (lent.lend(), answers.lend());
        // SAFETY: the pointers are to as many numbers as are named, which live through the call and do not meet; so too below.
        let run =
            unsafe { strip_execute(calls, ns, capacity, clear_first, words, nw, counters, nc, image, ni, out, no) };
        assert!(self.intact() && lent.intact() && answers.intact(), "a script wrote to a guard");
        assert!(lent.numbers() == script, "the script changed");
        (run, answers.numbers().to_vec())
    }

    /// Runs one call under a handle with `room` numbers for what it tells: those numbers.
    pub fn step(&mut self, call: Call, h: Handle, room: usize) -> Vec<u64> {
        let mut told = Guarded::new(&vec![UNTOUCHED; room], UNTOUCHED);
        let ((words, nw), (counters, nc), (image, ni)) = (self.words.lend(), self.counters.lend(), self.image.lend());
        let (out, no) = told.lend();
        let (Call { op, x, y, z }, Handle { capacity: c, length: n, total: t }) = (call, h);
        unsafe { strip_step(op, x, y, z, c, n, t, words, nw, counters, nc, image, ni, out, no) };
        assert!(self.intact() && told.intact(), "{call:?} wrote to a guard");
        told.numbers().to_vec()
    }

    fn intact(&self) -> bool {
        self.words.intact() && self.counters.intact() && self.image.intact()
    }
}
