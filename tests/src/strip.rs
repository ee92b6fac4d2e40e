//! Strips as the calls on two of them are lent them: right, or with faults.
use crate::borders::{totals, BAD_CAPACITIES, LARGEST, WIDE};
use crate::model::{self, word_count};
use crate::random::Random;
use crate::{Handle, Lent};

/// The ways in which a handle can be bad.
pub const HANDLE_FAULTS: usize = 8;

/// The bits of all words that are lent, the words, and the handle under which they are read.
pub struct Strip {
    pub handle: Handle,
    pub bits: Vec<bool>,
    pub lent: Lent,
}

impl Strip {
    /// Of as many words as the capacity has.
    pub fn new(length: u64, bits: Vec<bool>) -> Strip {
        Strip::under(Handle::new(model::length(&bits), length), bits)
    }

    /// Under any handle.
    pub fn under(handle: Handle, bits: Vec<bool>) -> Strip {
        let lent = Lent::new(&model::words_of(&bits));
        Strip { handle, bits, lent }
    }

    /// These words.
    pub fn from_words(capacity: u64, length: u64, words: &[u64]) -> Strip {
        Strip { handle: Handle::new(capacity, length), bits: model::bits_of(words), lent: Lent::new(words) }
    }

    /// So many words, all of the same bits, under any handle.
    pub fn of_words(capacity: u64, length: u64, count: usize, bit: bool) -> Strip {
        Strip::under(Handle::new(capacity, length), vec![bit; 64 * count])
    }

    /// As many words as the capacity has, all of the same bits.
    pub fn filled(capacity: u64, length: u64, bit: bool) -> Strip {
        Strip::of_words(capacity, length, word_count(capacity), bit)
    }

    /// `text` at the start, all the same bits past it; capacity 512.
    pub fn from_text(text: &str, past: bool) -> Strip {
        let mut bits = model::text(text);
        let length = model::length(&bits);
        bits.resize(512, past);
        Strip::new(length, bits)
    }

    /// Totals good and bad under its handle.
    pub fn totals(&self) -> Vec<u64> {
        totals(self.handle, model::number_of(self.strokes(), true))
    }

    /// The bits below the length.
    pub fn strokes(&self) -> &[bool] {
        &self.bits[..self.handle.length as usize]
    }

    /// A strip with faults: its handle bad in the way that `handle` numbers, or good; its words too few, too many or none, as
    /// `words` numbers, or right. All its bits are `bit`.
    pub fn faulty(good: Handle, handle: Option<usize>, words: Option<usize>, bit: bool) -> Strip {
        let Handle { capacity: c, length: n, total: t } = good;
        let list = [
            (c, c + 1, t),
            (c - 1, n, t),
            (0, 0, 0),
            (WIDE + c, n, t),
            (LARGEST + 512, n, t),
            (c, u64::MAX, t),
            (c, n, n + 1),
            (c, n, u64::MAX),
        ];
        assert_eq!(list.len(), HANDLE_FAULTS);
        let (capacity, length, total) = handle.map_or((c, n, t), |way| list[way]);
        let needed = word_count(c);
        let count = words.map_or(needed, |way| [needed - 1, needed + 1, 0][way % 3]);
        Strip::under(Handle { capacity, length, total }, vec![bit; 64 * count])
    }

    /// The strip under any total, as it is, or with another handle, another number of words, or under another capacity or
    /// length.
    pub fn altered(self, random: &mut Random) -> Strip {
        let Handle { capacity, length, .. } = self.handle;
        let mut bits = self.bits;
        let way = random.below(40);
        let h = match way {
            0 => Handle::new(BAD_CAPACITIES[random.below(BAD_CAPACITIES.len())], length),
            1 => Handle::new(capacity, capacity + 1 + random.number_below(3) * WIDE),
            2 | 3 => {
                let count = [bits.len() - 64, bits.len() + 64, 0, 2 * bits.len()][random.below(4)];
                bits.resize(count, true);
                self.handle
            }
            4 => {
                bits.resize(bits.len() + 512, random.below(2) == 0);
                Handle::new(capacity + 512, length)
            }
            5 => Handle::new(capacity, random.number_below(capacity + 1)),
            _ => self.handle,
        };
        let total =
            if way == 6 { h.length + 1 + random.number_below(3) * WIDE } else { random.number_below(h.length + 1) };
        Strip::under(h.with(total), bits)
    }
}

/// Each total to try of one strip with each of the other.
pub fn both_totals(first: &Strip, second: &Strip) -> Vec<(u64, u64)> {
    let others = second.totals();
    first.totals().into_iter().flat_map(|total| others.iter().map(move |other| (total, *other))).collect()
}

/// Both handles and how many words are lent, for messages.
pub fn both_handles(first: &Strip, second: &Strip) -> String {
    let [x, y] = [first, second].map(|strip| format!("{:?}, {} words", strip.handle, strip.lent.count()));
    format!("under {x}; {y}")
}
