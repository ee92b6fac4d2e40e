//! look, next, prior and the word select, against the plain model and against answers worked out by hand.
use strip_tests::borders::{self, beside, lengths, totals, FAR, LARGEST, ONE_LEVEL, THREE_LEVELS, TWO_LEVELS, VALUES};
use strip_tests::cases::Cases;
use strip_tests::model;
use strip_tests::random::Random;
use strip_tests::refusal::{Answer, Refusal};
use strip_tests::{select_in_word, Handle, Lent};
use Refusal::*;

/// A strip with what lies past its length, its words, and the handle under which it is read.
struct Strip {
    handle: Handle,
    bits: Vec<bool>,
    lent: Lent,
}

impl Strip {
    fn new(length: u64, bits: Vec<bool>) -> Strip {
        let handle = Handle::new(model::length(&bits), length);
        let lent = Lent::new(&model::words_of(&bits));
        Strip { handle, bits, lent }
    }

    /// `text` at the start, zeros past it.
    fn from_text(capacity: u64, text: &str) -> Strip {
        let mut bits = model::text(text);
        let length = model::length(&bits);
        bits.resize(capacity as usize, false);
        Strip::new(length, bits)
    }

    fn get(&mut self, i: u64) -> Answer {
        self.lent.get(self.handle, i)
    }

    fn successor(&mut self, v: u64, i: u64) -> Answer {
        self.lent.successor(self.handle, v, i)
    }

    fn predecessor(&mut self, v: u64, i: u64) -> Answer {
        self.lent.predecessor(self.handle, v, i)
    }

    /// Compares look at i, and next and prior of v at i, with the model.
    fn compare(&mut self, v: u64, i: u64) {
        let (h, count) = (self.handle, self.lent.count());
        let bits = model::check(h, count, None).map(|()| &self.bits[..h.length as usize]);
        let looked = bits.and_then(|bits| model::get(bits, i));
        let next = bits.and_then(|bits| model::successor(bits, v, i));
        let prior = bits.and_then(|bits| model::predecessor(bits, v, i));
        assert_eq!(self.lent.get(h, i), looked, "look({i}) under {h:?}, {count} words");
        assert_eq!(self.lent.successor(h, v, i), next, "next({v}, {i}) under {h:?}, {count} words");
        assert_eq!(self.lent.predecessor(h, v, i), prior, "prior({v}, {i}) under {h:?}, {count} words");
    }
}

/// Positions at which a strip is read: around 0, the ends of words and blocks, the length and the capacity; far past;
/// some at random.
fn positions(random: &mut Random, h: Handle, at_random: usize) -> Vec<u64> {
    let mut list = FAR.to_vec();
    for edge in [0, 64, 512, h.length / 64 * 64, h.length, h.capacity] {
        list.push(edge.saturating_sub(2));
        list.extend(beside(edge));
    }
    list.extend((0..at_random).map(|_| random.number_below(h.length + 2)));
    list
}

#[test]
fn strip_a() {
    let mut a = Strip::from_text(512, "01101101010101110");
    for (i, bit) in (0..).zip([0, 1, 1, 0, 1, 1, 0, 1, 0, 1, 0, 1, 0, 1, 1, 1, 0]) {
        assert_eq!(a.get(i), Ok(bit));
    }
    assert_eq!(a.get(17), Err(Position));
    // next(v, i)
    for (v, i, p) in [(1, 0, 1), (1, 1, 1), (1, 3, 4), (1, 6, 7), (1, 8, 9), (1, 12, 13), (1, 15, 15)] {
        assert_eq!(a.successor(v, i), Ok(p));
    }
    for (v, i, p) in [(0, 0, 0), (0, 1, 3), (0, 4, 6), (0, 7, 8), (0, 13, 16), (0, 16, 16)] {
        assert_eq!(a.successor(v, i), Ok(p));
    }
    for (v, i, n) in [
        (1, 16, NotFound),
        (1, 17, NotFound),
        (0, 17, NotFound),
        (1, 18, Position),
        (0, 18, Position),
        (2, 0, BadValue),
        (2, 18, BadValue),
    ] {
        assert_eq!(a.successor(v, i), Err(n));
    }
    // prior(v, i)
    for (v, i, p) in [(1, 17, 15), (1, 16, 15), (1, 15, 14), (1, 13, 11), (1, 9, 7), (1, 4, 2), (1, 2, 1)] {
        assert_eq!(a.predecessor(v, i), Ok(p));
    }
    for (v, i, p) in [(0, 17, 16), (0, 16, 12), (0, 13, 12), (0, 8, 6), (0, 6, 3), (0, 3, 0), (0, 1, 0)] {
        assert_eq!(a.predecessor(v, i), Ok(p));
    }
    for (v, i, n) in [
        (1, 1, NotFound),
        (1, 0, NotFound),
        (0, 0, NotFound),
        (1, 18, Position),
        (0, 18, Position),
        (2, 0, BadValue),
        (2, 18, BadValue),
    ] {
        assert_eq!(a.predecessor(v, i), Err(n));
    }
    // A's ones, by the word select
    for (k, p) in (0..).zip([1, 2, 4, 5, 7, 9, 11, 13, 14, 15, 64]) {
        assert_eq!(select_in_word(0xeab6, k), p);
    }
}

#[test]
fn empty_strip() {
    let mut empty = Strip::new(0, vec![true; 512]);
    assert_eq!(empty.get(0), Err(Position));
    for v in [0, 1] {
        assert_eq!(empty.successor(v, 0), Err(NotFound));
        assert_eq!(empty.predecessor(v, 0), Err(NotFound));
        assert_eq!(empty.successor(v, 1), Err(Position));
        assert_eq!(empty.predecessor(v, 1), Err(Position));
    }
}

/// Every length and density, with zeros, ones or anything past the length.
#[test]
fn strips() {
    let mut cases = Cases::new("words", "strips", 1);
    for capacity in [512, 1024, 4096, ONE_LEVEL, TWO_LEVELS] {
        let drawn = [None; 12];
        for given in lengths(capacity).into_iter().map(Some).chain(drawn) {
            for share in [0, 1, 20, 500, 980, 1000] {
                for past in [0, 500, 1000] {
                    cases.run(|random| {
                        let length = given.unwrap_or_else(|| random.number_below(capacity));
                        let mut bits = random.bits(length, share);
                        bits.extend(random.bits(capacity - length, past));
                        let mut strip = Strip::new(length, bits);
                        for i in positions(random, strip.handle, 30) {
                            for v in VALUES {
                                strip.compare(v, i);
                            }
                        }
                    });
                }
            }
        }
    }
}

/// Totals good and bad: up to the length the answers are the same under each, above it all is refused.
#[test]
fn any_total() {
    let mut cases = Cases::new("words", "any_total", 5);
    for given in lengths(1024).into_iter().map(Some).chain([None; 6]) {
        for share in [0, 20, 500, 1000] {
            cases.run(|random| {
                let length = given.unwrap_or_else(|| random.number_below(1024));
                let bits = [random.bits(length, share), random.bits(1024 - length, 500)].concat();
                let ones = model::number_of(&bits[..length as usize], true);
                let mut strip = Strip::new(length, bits);
                for total in totals(strip.handle, ones) {
                    strip.handle.total = total;
                    for i in positions(random, strip.handle, 5) {
                        for v in VALUES {
                            strip.compare(v, i);
                        }
                    }
                }
            });
        }
    }
}

/// Every position of small strips.
#[test]
fn every_position() {
    let mut cases = Cases::new("words", "every_position", 2);
    for (capacity, length) in [(512, 0), (512, 1), (512, 65), (512, 512), (1024, 300), (1024, 1023), (1536, 1472)] {
        for share in [3, 100, 500, 900, 997] {
            cases.run(|random| {
                let mut strip = Strip::new(length, random.bits(capacity, share));
                for i in 0..capacity + 2 {
                    for v in [0, 1] {
                        strip.compare(v, i);
                    }
                }
            });
        }
    }
}

/// One stroke apart from all others, at each position: what next and prior answer around it.
#[test]
fn single_stroke() {
    let capacity = 1024;
    for v in [0, 1] {
        for p in 0..capacity {
            let mut bits = vec![v == 0; capacity as usize];
            bits[p as usize] = v == 1;
            let mut strip = Strip::new(capacity, bits);
            let at = Ok(p);
            assert_eq!(strip.get(p), Ok(v));
            for i in [0, p / 64 * 64, p] {
                assert_eq!(strip.successor(v, i), at);
            }
            for i in [p + 1, capacity] {
                assert_eq!(strip.successor(v, i), Err(NotFound));
                assert_eq!(strip.predecessor(v, i), at);
            }
            for i in [0, p] {
                assert_eq!(strip.predecessor(v, i), Err(NotFound));
            }
            // past the length it is not there
            strip.handle.length = p;
            assert_eq!(strip.get(p), Err(Position));
            assert_eq!(strip.successor(v, 0), Err(NotFound));
            assert_eq!(strip.predecessor(v, p), Err(NotFound));
        }
    }
}

#[test]
fn large_strip() {
    let mut cases = Cases::new("words", "large_strip", 3);
    let capacity = THREE_LEVELS;
    for given in [Some(capacity), Some(1 << 21), Some((1 << 21) - 63), None] {
        for share in [0, 1, 500, 1000] {
            cases.run(|random| {
                let length = given.unwrap_or_else(|| random.number_below(capacity));
                let mut strip = Strip::new(length, random.bits(capacity, share));
                for i in positions(random, strip.handle, 10) {
                    for v in [0, 1, 2] {
                        strip.compare(v, i);
                    }
                }
            });
        }
    }
}

#[test]
fn largest_strip() {
    let mut bits = vec![false; LARGEST as usize];
    for p in [77, LARGEST / 2, LARGEST - 2] {
        bits[p as usize] = true;
    }
    let mut strip = Strip::new(LARGEST, bits);
    for i in [0, 77, 78, LARGEST / 2, LARGEST / 2 + 1, LARGEST - 1, LARGEST, LARGEST + 1] {
        strip.compare(1, i);
    }
    assert_eq!(strip.successor(0, LARGEST - 2), Ok(LARGEST - 1));
    assert_eq!(strip.successor(1, LARGEST - 1), Err(NotFound));
    assert_eq!(strip.predecessor(1, LARGEST - 2), Ok(LARGEST / 2));
    strip.handle.length = LARGEST - 2;
    assert_eq!(strip.successor(1, LARGEST / 2 + 1), Err(NotFound));
    assert_eq!(strip.get(LARGEST - 2), Err(Position));
}

/// Asserts that all three calls refuse alike, wherever and for whatever v they are made.
fn all_refuse(lent: &mut Lent, h: Handle, refusal: Refusal) {
    let count = lent.count();
    for i in [0, 1, 511, h.length, h.length.wrapping_add(1)].into_iter().chain(FAR) {
        assert_eq!(lent.get(h, i), Err(refusal), "look({i}) under {h:?}, {count} words");
        for v in VALUES {
            assert_eq!(lent.successor(h, v, i), Err(refusal), "next({v}, {i}) under {h:?}, {count} words");
            assert_eq!(lent.predecessor(h, v, i), Err(refusal), "prior({v}, {i}) under {h:?}, {count} words");
        }
    }
}

#[test]
fn bad_handles() {
    for count in [0, 4, 7, 8, 9, 12, 16] {
        let mut lent = Lent::new(&vec![u64::MAX; count]);
        for h in borders::bad_handles() {
            all_refuse(&mut lent, h, BadHandle);
        }
    }
}

#[test]
fn wrong_word_counts() {
    for capacity in [512, 1024, 4096, TWO_LEVELS] {
        let words = model::word_count(capacity);
        for count in [0, 1, words - 1, words + 1, 2 * words, 64 * words] {
            let mut lent = Lent::new(&vec![u64::MAX; count]);
            for length in [0, 1, capacity - 1, capacity] {
                all_refuse(&mut lent, Handle::new(capacity, length), WordCount);
            }
        }
    }
    let mut lent = Lent::new(&[u64::MAX; 8]);
    all_refuse(&mut lent, Handle::new(LARGEST, 100), WordCount);
}

/// Every set of faults at once, the handle's being its length or its total: the first in the order 1, 2, 8, 4, 6 is the
/// answer.
#[test]
fn first_refusal_wins() {
    for faults in 0..64 {
        let has = |n: u32| faults / 2u32.pow(n) % 2 == 1;
        let [words, value, position, absent, above, long] = [has(0), has(1), has(2), has(3), has(4), has(5)];
        let handle = above || long;
        let length = if long { 1025 } else { 700 };
        let h = Handle::new(1024, length).with(length + u64::from(above));
        let mut lent = Lent::new(&vec![if absent { 0 } else { u64::MAX }; if words { 15 } else { 16 }]);
        let v = if value { 2 } else { 1 };
        let i = length + u64::from(position);
        let order =
            [(handle, BadHandle), (words, WordCount), (value, BadValue), (position, Position), (absent, NotFound)];
        let first = order.into_iter().find(|(has, _)| *has);
        let expected = first.map_or(Ok(699), |(_, refusal)| Err(refusal));
        assert_eq!(lent.predecessor(h, v, i), expected);
        // next at the length finds nothing, so it is asked one below where no position is to be refused
        let i = if position { i } else { length - 1 };
        assert_eq!(lent.successor(h, v, i), expected);
        let order = [(handle, BadHandle), (words, WordCount), (position, Position)];
        let first = order.into_iter().find(|(has, _)| *has);
        assert_eq!(lent.get(h, i), first.map_or(Ok(u64::from(!absent)), |(_, refusal)| Err(refusal)));
    }
}

/// The word select by the model: 64 where there are too few ones.
fn selected(bits: &[bool], k: u64) -> u64 {
    model::select(bits, 1, k).unwrap_or(64)
}

fn compare_select(x: u64, k: u64) {
    assert_eq!(select_in_word(x, k), selected(&model::bits_of(&[x]), k), "one {k} of {x:#x}");
}

/// Compares at each k from 0 to 70, and far past.
fn compare_all_selects(x: u64) {
    let bits = model::bits_of(&[x]);
    for k in (0..=70).chain([255, 256]).chain(FAR) {
        assert_eq!(select_in_word(x, k), selected(&bits, k), "one {k} of {x:#x}");
    }
}

#[test]
fn select_every_byte_in_every_lane() {
    for lane in 0..8 {
        for byte in 0..256u64 {
            let x = byte << (8 * lane);
            compare_all_selects(x);
            // with every other lane full
            compare_all_selects(x | !(255 << (8 * lane)));
        }
    }
}

#[test]
fn select_fixed_words() {
    for p in 0..64 {
        let x = 1 << p;
        assert_eq!(select_in_word(x, 0), p);
        assert_eq!(select_in_word(x, 1), 64);
        compare_all_selects(x);
        compare_all_selects(!x);
        // the ones below p, and those from p on
        compare_all_selects(x - 1);
        compare_all_selects(!(x - 1));
    }
    for k in 0..64 {
        assert_eq!(select_in_word(u64::MAX, k), k);
    }
    for k in [0, 1, 63, 64].into_iter().chain(FAR) {
        assert_eq!(select_in_word(0, k), 64);
    }
    for k in [64, 65, 256].into_iter().chain(FAR) {
        assert_eq!(select_in_word(u64::MAX, k), 64);
    }
}

#[test]
fn select_random_words() {
    let mut cases = Cases::new("words", "select_random_words", 4);
    for _ in 0..100_000 {
        cases.run(|random| {
            let (x, y, z) = (random.number(), random.number(), random.number());
            compare_all_selects(x);
            compare_all_selects(x & y & z);
            compare_all_selects(x | y | z);
            compare_select(x & y, random.number_below(70));
        });
    }
}
