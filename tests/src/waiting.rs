//! The two calls on a strip and its waiting strip, asked of the library and of the model.
use crate::ffi::{strip_waiting_count, strip_waiting_find};
use crate::guarded::Guarded;
use crate::record::UNTOUCHED;
use crate::refusal::{Bounded, Bounds, Refusal};
use crate::{model, Handle, Lent};
use std::ptr::null_mut;
use Refusal::{BadHandle, NotFound, Position, Unequal, WordCount};
use Waiting::*;

/// A call on a strip and its waiting strip with its argument.
#[derive(Clone, Copy, Debug)]
pub enum Waiting {
    /// the least and the most misfires before i
    Count(u64),
    /// the earliest and the latest position of the k-th misfire
    Find(u64),
}

/// Both calls, of 0, each at its index.
pub const WAITING: [Waiting; 2] = [Count(0), Find(0)];

/// A strip as it is lent: its handle, its words and how many they are.
pub type Pointers = (Handle, *const u64, usize);

impl Waiting {
    pub fn index(self) -> usize {
        match self {
            Count(_) => 0,
            Find(_) => 1,
        }
    }

    pub fn name(self) -> &'static str {
        ["waiting count", "waiting find"][self.index()]
    }

    /// The refusals that it can meet, in the order of their numbers.
    pub fn refusals(self) -> &'static [Refusal] {
        match self {
            Count(_) => &[BadHandle, WordCount, Position, Unequal],
            Find(_) => &[BadHandle, WordCount, NotFound, Unequal],
        }
    }

    /// How many numbers it writes to `out`.
    pub fn numbers(self) -> usize {
        match self {
            Count(_) => 3,
            Find(_) => 4,
        }
    }

    /// What the library answers. Asserts that it left the words of both strips as they were.
    pub fn told(self, strip: (Handle, &mut Lent), waiting: (Handle, &mut Lent)) -> Bounded {
        self.read(&self.left(strip, waiting, self.numbers()))
    }

    /// What it leaves in an `out` of so many numbers, untouched before. Asserts that it changed nothing else.
    pub fn left(self, strip: (Handle, &mut Lent), waiting: (Handle, &mut Lent), room: usize) -> Vec<u64> {
        let ((xs, nx), (ys, ny)) = (strip.1.lend(), waiting.1.lend());
        // SAFETY: the pointers are to nx and ny words, which live through the call.
        let out = unsafe { self.write((strip.0, xs, nx), (waiting.0, ys, ny), room) };
        strip.1.unchanged();
        waiting.1.unchanged();
        out
    }

    /// What the library answers where one list of words is lent for both strips, of each so many from a place on.
    pub fn told_of_one(
        self,
        strip: (Handle, usize, usize),
        waiting: (Handle, usize, usize),
        lent: &mut Lent,
    ) -> Bounded {
        let (words, count) = lent.lend();
        let [strip, waiting] = [strip, waiting].map(|(handle, from, many)| {
            assert!(from + many <= count);
            (handle, words.wrapping_add(from), many)
        });
        // SAFETY: as in `told`; the call only reads.
        let told = unsafe { self.ask(strip, waiting) };
        lent.unchanged();
        told
    }

    /// What the library answers, with as many numbers lent for `out` as it writes.
    ///
    /// # Safety
    /// Each pointer is to so many words, which live through the call; of no words it may be null.
    pub unsafe fn ask(self, strip: Pointers, waiting: Pointers) -> Bounded {
        self.read(&self.write(strip, waiting, self.numbers()))
    }

    /// What it leaves in an `out` of so many numbers, untouched before; where they are none, in a null one too. Asserts that it
    /// wrote to nothing beside them.
    unsafe fn write(self, strip: Pointers, waiting: Pointers, room: usize) -> Vec<u64> {
        let (Handle { capacity: c, length: n, total: t }, xs, nx) = strip;
        let (Handle { capacity: d, length: m, total: u }, ys, ny) = waiting;
        let mut report = Guarded::new(&vec![UNTOUCHED; room], UNTOUCHED);
        let (out, no) = report.lend();
        for out in if room == 0 { vec![out, null_mut()] } else { vec![out] } {
            match self {
                Count(i) => strip_waiting_count(c, n, t, xs, nx, d, m, u, ys, ny, i, out, no),
                Find(k) => strip_waiting_find(c, n, t, xs, nx, d, m, u, ys, ny, k, out, no),
            }
        }
        assert!(report.intact(), "{self:?} wrote beside {room} numbers");
        report.numbers().to_vec()
    }

    /// The answer that the first numbers of `out` tell. Asserts that values which are none are 0.
    pub fn read(self, out: &[u64]) -> Bounded {
        if out[0] != 0 {
            let zeros = vec![0; self.numbers() - 1];
            assert_eq!(out[1..self.numbers()], zeros, "{self:?}: values told with refusal {}", out[0]);
            return Err(Refusal::of(out[0]));
        }
        let high = match self {
            Count(_) => Some(out[2]),
            Find(_) if out[2] == 1 => Some(out[3]),
            Find(_) => {
                assert_eq!(out[2..4], [0, 0], "{self:?}: neither a latest position nor none");
                None
            }
        };
        Ok(Bounds { low: out[1], high })
    }

    /// What it owes by a walk over the cells, each strip as its handle and the bits of all words that are lent.
    pub fn owed(self, (h, xs): (Handle, &[bool]), (g, ys): (Handle, &[bool])) -> Bounded {
        model::check_pair((h, xs.len() / 64), (g, ys.len() / 64))?;
        let (xs, ys) = (&xs[..h.length as usize], &ys[..g.length as usize]);
        match self {
            Count(i) => model::waiting_count(xs, ys, i),
            Find(k) => model::waiting_find(xs, ys, k),
        }
    }

    /// What it owes over all these outcomes, one by one.
    pub fn owed_over(self, outcomes: &[Vec<bool>]) -> Bounded {
        match self {
            Count(i) => model::count_of_outcomes(outcomes, i),
            Find(k) => model::find_of_outcomes(outcomes, k),
        }
    }
}
