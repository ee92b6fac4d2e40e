//! The call that seeks a burst, asked of the library and of the model.
use crate::ffi::strip_burst;
use crate::refusal::{answer, Answer, Refusal};
use crate::waiting::Pointers;
use crate::{model, Handle, Lent};
use Refusal::{BadHandle, BadWindow, NotFound, WordCount};

/// burst(w, m): a window of w strokes with at least m ones.
#[derive(Clone, Copy, Debug)]
pub struct Burst {
    pub w: u64,
    pub m: u64,
}

/// The refusals that it can meet, in the order of their numbers.
pub const REFUSALS: [Refusal; 4] = [BadHandle, WordCount, NotFound, BadWindow];

impl Burst {
    /// What the library answers. Asserts that it left the words as they were.
    pub fn told(self, h: Handle, lent: &mut Lent) -> Answer {
        let (words, count) = lent.lend();
        // SAFETY: the pointer is to `count` words, which live through the call.
        let told = unsafe { self.ask((h, words, count)) };
        lent.unchanged();
        told
    }

    /// What the library answers, wherever the words lie.
    ///
    /// # Safety
    /// The pointer is to so many words, which live through the call; of no words it may be null.
    pub unsafe fn ask(self, (h, words, count): Pointers) -> Answer {
        answer(strip_burst(h.capacity, h.length, h.total, words, count, self.w, self.m))
    }

    /// Its refusal, or that a start is owed: of a handle and the counts of the ones of all words that are lent.
    pub fn owed(self, h: Handle, counts: &[u32]) -> Result<(), Refusal> {
        model::check(h, counts.len() / 64, None)?;
        model::burst(&counts[..=h.length as usize], self.w, self.m)
    }

    /// Whether an answer is right, of the same.
    pub fn right(self, h: Handle, counts: &[u32], told: Answer) -> bool {
        match told {
            Ok(s) => self.owed(h, counts).is_ok() && model::qualifies(&counts[..=h.length as usize], self.w, self.m, s),
            Err(refusal) => self.owed(h, counts) == Err(refusal),
        }
    }
}
