//! A record, words and counters, lent to the proved calls.
use crate::call::{Call, Opcode};
use crate::ffi::{
    strip_counter_count, strip_create, strip_fill, strip_flip, strip_push, strip_rank, strip_select, strip_truncate,
    strip_verify,
};
use crate::guarded::Guarded;
use crate::refusal::{answer, values, Answer, Values};
use crate::Handle;

/// The number of counters that a capacity needs.
pub fn counters_needed(capacity: u64) -> Answer {
    // SAFETY: the call takes a number only.
    answer(unsafe { strip_counter_count(capacity) })
}

/// A call that changes a record. `Create` takes a capacity and no handle.
#[derive(Clone, Copy, Debug)]
pub enum Change {
    Create(u64),
    Push(u64),
    Flip(u64),
    Fill(u64, u64, u64),
    Truncate(u64),
}

/// A call that reads a record.
#[derive(Clone, Copy, Debug)]
pub enum Reading {
    Rank(u64, u64),
    Select(u64, u64),
    Verify,
}

impl From<Change> for Call {
    fn from(change: Change) -> Call {
        match change {
            Change::Create(c) => Call::new(Opcode::Create, [c, 0, 0]),
            Change::Push(v) => Call::new(Opcode::Push, [v, 0, 0]),
            Change::Flip(i) => Call::new(Opcode::Flip, [i, 0, 0]),
            Change::Fill(a, b, v) => Call::new(Opcode::Fill, [a, b, v]),
            Change::Truncate(n) => Call::new(Opcode::Truncate, [n, 0, 0]),
        }
    }
}

impl From<Reading> for Call {
    fn from(reading: Reading) -> Call {
        match reading {
            Reading::Rank(v, i) => Call::new(Opcode::Rank, [v, i, 0]),
            Reading::Select(v, k) => Call::new(Opcode::Select, [v, k, 0]),
            Reading::Verify => Call::new(Opcode::Verify, [0; 3]),
        }
    }
}

/// What a change writes to `out`: what it tells, and the handle now in use.
#[derive(Clone, Copy, Debug, PartialEq, Eq)]
pub struct Report {
    pub told: Values,
    pub handle: Handle,
}

/// What `out` holds before a call.
pub const UNTOUCHED: u64 = 0x5bd1_e995_ffff_0000;

/// Words and counters. Each call asserts that it wrote to nothing beside them and the first six numbers of `out`.
pub struct Record {
    words: Guarded<u64>,
    counters: Guarded<u32>,
}

impl Record {
    pub fn new(words: &[u64], counters: &[u32]) -> Record {
        Record { words: Guarded::new(words, 0xa5a5_a5a5_5a5a_5a5a), counters: Guarded::new(counters, 0x5a5a_a5a5) }
    }

    pub fn words(&self) -> &[u64] {
        self.words.numbers()
    }

    pub fn counters(&self) -> &[u32] {
        self.counters.numbers()
    }

    pub fn words_mut(&mut self) -> &mut [u64] {
        self.words.numbers_mut()
    }

    pub fn counters_mut(&mut self) -> &mut [u32] {
        self.counters.numbers_mut()
    }

    /// How many words and counters are lent.
    pub fn sizes(&self) -> (usize, usize) {
        (self.words().len(), self.counters().len())
    }

    /// Makes the change, with an `out` of eight numbers.
    pub fn change(&mut self, h: Handle, change: Change) -> Report {
        let out = self.run(h, change, 8);
        assert!(out[6..].iter().all(|number| *number == UNTOUCHED), "{change:?} wrote past the six numbers");
        Report { told: values(&out), handle: Handle::told(&out) }
    }

    /// Makes the call with an `out` of fewer than six numbers, and asserts that it wrote nothing there.
    pub fn idle(&mut self, h: Handle, change: Change, room: usize) {
        assert!(room < 6);
        let out = self.run(h, change, room);
        assert!(out.iter().all(|number| *number == UNTOUCHED), "{change:?} wrote to {room} numbers");
    }

    fn run(&mut self, h: Handle, change: Change, room: usize) -> Vec<u64> {
        let mut report = Guarded::new(&vec![UNTOUCHED; room], UNTOUCHED);
        let ((words, nw), (counters, nc), (out, no)) = (self.words.lend(), self.counters.lend(), report.lend());
        let Handle { capacity: c, length: n, total: t } = h;
        // SAFETY: the pointers are to nw words, nc counters and no numbers, which live through the call and do not meet.
        unsafe {
            match change {
                Change::Create(c) => strip_create(c, words, nw, counters, nc, out, no),
                Change::Push(v) => strip_push(c, n, t, words, nw, counters, nc, v, out, no),
                Change::Flip(i) => strip_flip(c, n, t, words, nw, counters, nc, i, out, no),
                Change::Fill(a, b, v) => strip_fill(c, n, t, words, nw, counters, nc, a, b, v, out, no),
                Change::Truncate(m) => strip_truncate(c, n, t, words, nw, counters, nc, m, out, no),
            }
        }
        assert!(self.words.intact() && self.counters.intact() && report.intact(), "{change:?} wrote to a guard");
        report.numbers().to_vec()
    }

    /// Makes the reading.
    pub fn read(&mut self, h: Handle, reading: Reading) -> Answer {
        let ((words, nw), (counters, nc)) = (self.words.lend(), self.counters.lend());
        let Handle { capacity: c, length: n, total: t } = h;
        // SAFETY: as in `run`.
        let told = unsafe {
            match reading {
                Reading::Rank(v, i) => strip_rank(c, n, t, words, nw, counters, nc, v, i),
                Reading::Select(v, k) => strip_select(c, n, t, words, nw, counters, nc, v, k),
                Reading::Verify => strip_verify(c, n, t, words, nw, counters, nc),
            }
        };
        assert!(self.words.intact() && self.counters.intact(), "{reading:?} wrote to a guard");
        answer(told)
    }
}
