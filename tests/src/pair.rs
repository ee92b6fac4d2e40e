//! The six calls that compare two strips, asked of the library and of the model.
use crate::ffi::{
    strip_pair_both, strip_pair_differ, strip_pair_either, strip_pair_find, strip_pair_only_first, strip_pair_span,
};
use crate::refusal::{answer, signed, Refusal, Signed};
use crate::{model, Handle, Lent};
use Comparison::*;
use Refusal::{BadHandle, NotFound, Position, Unequal, WordCount};

/// A call that compares two strips, with its arguments.
#[derive(Clone, Copy, Debug)]
pub enum Comparison {
    /// how many strokes before i both mark
    Both(u64),
    /// how many strokes before i either marks
    Either(u64),
    /// how many strokes before i only the first marks
    OnlyFirst(u64),
    /// how many strokes before i they judge differently
    Differ(u64),
    /// the k-th stroke judged differently
    Find(u64),
    /// over a span a to b, the ones of the first less the ones of the second
    Span(u64, u64),
}

/// All comparisons, of 0, each at its index.
pub const COMPARISONS: [Comparison; 6] = [Both(0), Either(0), OnlyFirst(0), Differ(0), Find(0), Span(0, 0)];

/// The four counts before i.
pub fn counts(i: u64) -> [Comparison; 4] {
    [Both(i), Either(i), OnlyFirst(i), Differ(i)]
}

impl Comparison {
    pub fn index(self) -> usize {
        match self {
            Both(_) => 0,
            Either(_) => 1,
            OnlyFirst(_) => 2,
            Differ(_) => 3,
            Find(_) => 4,
            Span(..) => 5,
        }
    }

    pub fn name(self) -> &'static str {
        ["both", "either", "only first", "differ", "find differing", "span difference"][self.index()]
    }

    /// The refusals that it can meet, in the order of their numbers.
    pub fn refusals(self) -> &'static [Refusal] {
        match self {
            Both(_) | Either(_) | OnlyFirst(_) | Differ(_) => &[BadHandle, WordCount, Position, Unequal],
            Find(_) => &[BadHandle, WordCount, NotFound, Unequal],
            Span(..) => &[BadHandle, WordCount, Position, Refusal::Span, Unequal],
        }
    }

    /// What the library answers. Asserts that it left the words of both strips as they were.
    pub fn told(self, first: (Handle, &mut Lent), second: (Handle, &mut Lent)) -> Signed {
        let ((xs, nx), (ys, ny)) = (first.1.lend(), second.1.lend());
        // SAFETY: the pointers are to nx and ny words, which live through the call.
        let told = unsafe { self.ask((first.0, xs, nx), (second.0, ys, ny)) };
        first.1.unchanged();
        second.1.unchanged();
        told
    }

    /// What the library answers where the same words are lent for both strips.
    pub fn told_of_one(self, first: Handle, second: Handle, lent: &mut Lent) -> Signed {
        let (words, count) = lent.lend();
        // SAFETY: as in `told`; the call only reads.
        let told = unsafe { self.ask((first, words, count), (second, words, count)) };
        lent.unchanged();
        told
    }

    /// What the library answers, each strip as its handle, its words and how many they are.
    ///
    /// # Safety
    /// Each pointer is to so many words, which live through the call; of no words it may be null.
    pub unsafe fn ask(self, first: (Handle, *const u64, usize), second: (Handle, *const u64, usize)) -> Signed {
        let (Handle { capacity: c, length: n, total: t }, xs, nx) = first;
        let (Handle { capacity: d, length: m, total: u }, ys, ny) = second;
        let told = match self {
            Both(i) => strip_pair_both(c, n, t, xs, nx, d, m, u, ys, ny, i),
            Either(i) => strip_pair_either(c, n, t, xs, nx, d, m, u, ys, ny, i),
            OnlyFirst(i) => strip_pair_only_first(c, n, t, xs, nx, d, m, u, ys, ny, i),
            Differ(i) => strip_pair_differ(c, n, t, xs, nx, d, m, u, ys, ny, i),
            Find(k) => strip_pair_find(c, n, t, xs, nx, d, m, u, ys, ny, k),
            Span(a, b) => return signed(strip_pair_span(c, n, t, xs, nx, d, m, u, ys, ny, a, b)),
        };
        answer(told).map(|value| value as i64)
    }

    /// What it owes, each strip as its handle and the bits of all words that are lent.
    pub fn owed(self, (h, xs): (Handle, &[bool]), (g, ys): (Handle, &[bool])) -> Signed {
        model::check_pair((h, xs.len() / 64), (g, ys.len() / 64))?;
        let (xs, ys) = (&xs[..h.length as usize], &ys[..g.length as usize]);
        let told = match self {
            Both(i) => model::both(xs, ys, i),
            Either(i) => model::either(xs, ys, i),
            OnlyFirst(i) => model::only_first(xs, ys, i),
            Differ(i) => model::differ(xs, ys, i),
            Find(k) => model::find_differing(xs, ys, k),
            Span(a, b) => return model::span_difference(xs, ys, a, b),
        };
        told.map(|value| value as i64)
    }
}
