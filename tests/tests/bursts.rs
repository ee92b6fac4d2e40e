//! The call that seeks a burst, against the plain model and against answers worked out by hand. Any start that qualifies is
//! right; one start is asked for only where no other qualifies.
use std::ptr::null;
use strip_tests::borders::{self, beside, lengths, FAR, LARGEST, ONE_LEVEL, SMALL, TWO_LEVELS, WIDE, WIDEST};
use strip_tests::burst::Burst;
use strip_tests::cases::{at_call, Cases};
use strip_tests::model::{self, word_count};
use strip_tests::random::Random;
use strip_tests::refusal::{Answer, Refusal};
use strip_tests::strip::{Strip, HANDLE_FAULTS};
use strip_tests::tally::Tally;
use strip_tests::{draw, Handle, Lent};
use Refusal::{BadHandle, BadWindow, NotFound, WordCount};

/// Asks, and asserts that the answer is this.
fn expect(w: u64, m: u64, strip: &mut Strip, wanted: Answer) {
    let (h, count) = (strip.handle, strip.lent.count());
    assert_eq!(Burst { w, m }.told(h, &mut strip.lent), wanted, "burst({w}, {m}) under {h:?}, {count} words");
}

/// Asks, and asserts that the answer is one of these starts.
fn expect_among(w: u64, m: u64, strip: &mut Strip, starts: &[u64]) {
    let told = Burst { w, m }.told(strip.handle, &mut strip.lent);
    assert!(told.is_ok_and(|s| starts.contains(&s)), "burst({w}, {m}) is {told:?}, not of {starts:?}");
}

/// A strip, and the counts of the ones of all words that are lent.
struct Counted {
    strip: Strip,
    counts: Vec<u32>,
}

impl Counted {
    fn new(strip: Strip) -> Counted {
        let counts = model::counts_of(&strip.bits);
        Counted { strip, counts }
    }

    /// The counts of the ones below the length.
    fn strokes(&self) -> &[u32] {
        &self.counts[..=self.strip.handle.length as usize]
    }

    /// Asks, and asserts that the answer is right by the model.
    fn compare(&mut self, burst: Burst) -> Answer {
        let (h, count) = (self.strip.handle, self.strip.lent.count());
        let told = burst.told(h, &mut self.strip.lent);
        let owed = burst.owed(h, &self.counts);
        assert!(burst.right(h, &self.counts, told), "{burst:?} under {h:?}, {count} words: {told:?}, owed {owed:?}");
        told
    }

    /// Compares where m is the most that a window of w strokes holds, one less and one more.
    fn compare_fullest(&mut self, w: u64) {
        if let Some(most) = model::fullest(self.strokes(), w) {
            for m in beside(most) {
                let _ = self.compare(Burst { w, m });
            }
        }
    }
}

/// A strip of ones at these places alone below the length, all the same bits past it.
fn marked(capacity: u64, length: u64, places: impl IntoIterator<Item = u64>, past: bool) -> Strip {
    let mut bits = vec![false; length as usize];
    places.into_iter().for_each(|p| bits[p as usize] = true);
    bits.resize(capacity as usize, past);
    Strip::new(length, bits)
}

/// Sets the bits at these places.
fn put(words: &mut [u64], places: impl IntoIterator<Item = u64>, bit: bool) {
    for p in places {
        let mask = 1 << (p % 64);
        let word = &mut words[p as usize / 64];
        *word = if bit { *word | mask } else { *word & !mask };
    }
}

/// Widths around one, two and more words, and around a block.
const WIDTHS: [u64; 20] = [1, 2, 3, 31, 32, 33, 62, 63, 64, 65, 66, 100, 127, 128, 129, 192, 200, 511, 512, 513];

// ---- answers worked out by hand

const A: &str = "01101101010101110";

#[test]
fn strip_a() {
    for past in [false, true] {
        let mut a = Strip::from_text(A, past);
        expect_among(1, 1, &mut a, &[1, 2, 4, 5, 7, 9, 11, 13, 14, 15]);
        expect_among(2, 1, &mut a, &[0, 1, 2, 3, 4, 5, 6, 7, 8, 9, 10, 11, 12, 13, 14, 15]);
        expect_among(2, 2, &mut a, &[1, 4, 13, 14]);
        expect_among(4, 3, &mut a, &[1, 2, 4, 11, 12, 13]);
        expect_among(16, 10, &mut a, &[0, 1]);
        for (w, m, s) in [(3, 3, 13), (15, 10, 1), (17, 1, 0), (17, 9, 0), (17, 10, 0)] {
            expect(w, m, &mut a, Ok(s));
        }
        for (w, m) in [(4, 4), (14, 10), (16, 11), (17, 11), (17, 17), (18, 1), (18, 10), (64, 1), (WIDEST, WIDEST)] {
            expect(w, m, &mut a, Err(NotFound));
        }
        for (w, m) in [(0, 0), (0, 1), (1, 0), (1, 2), (17, 0), (17, 18), (18, 19), (WIDEST + 1, 1)] {
            expect(w, m, &mut a, Err(BadWindow));
        }
    }
}

#[test]
fn empty_strips() {
    for past in [false, true] {
        let mut empty = Strip::filled(512, 0, past);
        for w in [1, 2, 64, 512, 513, WIDEST - 1, WIDEST] {
            for m in [1, w] {
                expect(w, m, &mut empty, Err(NotFound));
            }
            expect(w, 0, &mut empty, Err(BadWindow));
            expect(w, w + 1, &mut empty, Err(BadWindow));
        }
        expect(0, 0, &mut empty, Err(BadWindow));
    }
}

/// One window alone, at every start: ones at its two ends, or in all of it.
#[test]
fn every_start() {
    let capacity = 1024;
    for w in WIDTHS {
        for s in 0..=capacity - w {
            let (last, end) = (s + w - 1, s + w);
            for (places, m) in [(vec![s, last], w.min(2)), ((s..end).collect(), w)] {
                let mut strip = marked(capacity, capacity, places, false);
                expect(w, m, &mut strip, Ok(s));
                expect(w + 1, m + 1, &mut strip, Err(NotFound));
                if m < w {
                    expect(w, m + 1, &mut strip, Err(NotFound));
                    expect(w - 1, m, &mut strip, Err(NotFound));
                }
                // it ends with the strip; its last stroke is past the length
                strip.handle.length = end;
                expect(w, m, &mut strip, Ok(s));
                strip.handle.length = last;
                expect(w, m, &mut strip, Err(NotFound));
            }
        }
    }
}

/// Ones at the end of the strip, so that the last start alone qualifies, or at its start, so that the first does; what lies
/// past the length completes nothing.
#[test]
fn first_and_last_start() {
    for length in (1..=260).chain([511, 512, 513, 575, 576, 577, 640, 1023, 1024, 1025, 1150, 1151, 1152]) {
        let widths = WIDTHS.into_iter().chain([length - 1, length, length / 2]);
        for w in widths.filter(|w| (1..=length).contains(w)) {
            for m in [1, w / 3, w - 1, w].into_iter().filter(|m| (1..=w).contains(m)) {
                for past in [false, true] {
                    let mut at_end = marked(1536, length, length - m..length, past);
                    expect(w, m, &mut at_end, Ok(length - w));
                    let mut at_start = marked(1536, length, 0..m, past);
                    expect(w, m, &mut at_start, Ok(0));
                    if m < w {
                        expect(w, m + 1, &mut at_end, Err(NotFound));
                        expect(w, m + 1, &mut at_start, Err(NotFound));
                    }
                }
            }
        }
    }
}

/// Windows as wide as the strip, and wider.
#[test]
fn as_wide_as_the_strip() {
    for (capacity, length) in [
        (512, 1),
        (512, 2),
        (512, 63),
        (512, 64),
        (512, 65),
        (512, 511),
        (512, 512),
        (1024, 513),
        (TWO_LEVELS, TWO_LEVELS - 1),
        (TWO_LEVELS, TWO_LEVELS),
        (WIDEST, WIDEST - 1),
        (WIDEST, WIDEST),
    ] {
        for ones in [1, length / 2, length - 1, length].into_iter().filter(|ones| *ones > 0) {
            // the ones are the last, and all past the length are ones too
            let mut strip = marked(capacity, length, length - ones..length, true);
            expect(length, ones, &mut strip, Ok(0));
            expect(length, 1, &mut strip, Ok(0));
            expect(length, ones + 1, &mut strip, Err(if ones < length { NotFound } else { BadWindow }));
            let wider = if length < WIDEST { NotFound } else { BadWindow };
            expect(length + 1, 1, &mut strip, Err(wider));
            expect(length + 1, length + 1, &mut strip, Err(wider));
            if length > 1 {
                expect_among(length - 1, ones.min(length - 1), &mut strip, if ones < length { &[1] } else { &[0, 1] });
            }
        }
    }
}

/// No window of w is full, though every w-th stroke alone is 0; of a stroke less it is.
#[test]
fn ones_abound() {
    let mut cases = Cases::new("bursts", "ones_abound", 701);
    for w in (2..=130).chain([191, 192, 193, 256, 511, 512, 513, 1000, 1024]) {
        cases.run(|random| {
            for zero in [0, 1, w / 2, w - 2, w - 1, random.number_below(w)] {
                let length = 3 * w + random.number_below(200);
                let mut bits: Vec<bool> = (0..length).map(|p| p % w != zero).collect();
                bits.resize(4096, true);
                let mut strip = Counted::new(Strip::new(length, bits));
                expect(w, w, &mut strip.strip, Err(NotFound));
                for burst in [Burst { w, m: w - 1 }, Burst { w: w - 1, m: w - 1 }, Burst { w: 2 * w, m: 2 * w - 2 }] {
                    assert!(strip.compare(burst).is_ok());
                }
                expect(2 * w, 2 * w - 1, &mut strip.strip, Err(NotFound));
            }
        });
    }
    // half of them ones, and never two in a row
    let mut strip = Strip::new(1000, (0..1024).map(|p| p % 2 == 1 || p >= 1000).collect());
    for w in 1..=998 {
        let starts: Vec<u64> = (0..=1000 - w).filter(|s| w % 2 == 0 || s % 2 == 1).collect();
        expect_among(w, w.div_ceil(2), &mut strip, &starts);
        if w > 1 {
            expect(w, w.div_ceil(2) + 1, &mut strip, Err(NotFound));
        }
    }
}

/// The widest windows, full or with ones at both ends alone: around the borders of words, and at the strip's end.
#[test]
fn widest_windows() {
    let (capacity, length) = (2 * WIDEST + 512, 2 * WIDEST + 411);
    let last = length - WIDEST;
    let starts = (0..130).chain((1..16).map(|n| 4096 * n)).chain(last - 130..=last);
    let mut words = vec![0; word_count(capacity)];
    for s in starts {
        let h = Handle::new(capacity, length);
        let expect = |words: &[u64], m: u64, wanted: Answer| {
            let told = Burst { w: WIDEST, m }.told(h, &mut Lent::new(words));
            assert_eq!(told, wanted, "m {m}, the window at {s}");
        };
        put(&mut words, [s, s + WIDEST - 1], true);
        expect(&words, 2, Ok(s));
        expect(&words, 3, Err(NotFound));
        put(&mut words, s..s + WIDEST, true);
        expect(&words, WIDEST, Ok(s));
        put(&mut words, [s + WIDEST / 2], false);
        expect(&words, WIDEST, Err(NotFound));
        put(&mut words, s..s + WIDEST, false);
    }
}

// ---- strips of every length and density, against the model

/// None, few, half, most and all ones, of 1,000.
const SHARES: [usize; 6] = [0, 3, 50, 500, 950, 1000];

/// Bits of which so many in 1,000 are ones below the length, and so many past it.
fn drawn(random: &mut Random, capacity: u64, length: u64, share: usize, past: usize) -> Counted {
    let mut bits = random.bits(length, share);
    bits.extend(random.bits(capacity - length, past));
    Counted::new(Strip::new(length, bits))
}

/// Every w and every m of small strips.
#[test]
fn every_window() {
    let mut cases = Cases::new("bursts", "every_window", 702);
    for length in [1, 2, 3, 62, 63].into_iter().chain(64..=130) {
        for share in [30, 200, 500, 850] {
            cases.run(|random| {
                let mut strip = drawn(random, 512, length, share, 500);
                for w in 0..=length + 2 {
                    for m in 0..=w + 1 {
                        let _ = strip.compare(Burst { w, m });
                    }
                }
            });
        }
    }
}

/// Every width of strips of a few blocks, m around the most that a window holds.
#[test]
fn every_width() {
    let mut cases = Cases::new("bursts", "every_width", 703);
    for length in [511, 512, 513, 576, 640, 703, 1024, 1100] {
        for share in [3, 50, 500, 950] {
            cases.run(|random| {
                let mut strip = drawn(random, 1536, length, share, 1000);
                (1..=length + 1).for_each(|w| strip.compare_fullest(w));
            });
        }
    }
}

/// Bursts to seek: widths around the borders, the length and the most, m around the most that a window holds and around the
/// width, both far past, and some at random.
fn bursts(random: &mut Random, strip: &Counted, at_random: usize) -> Vec<Burst> {
    let length = strip.strip.handle.length;
    let mut widths: Vec<u64> = SMALL.into_iter().chain(WIDTHS).chain(FAR).collect();
    widths.extend([length, length / 2, length / 64 * 64, WIDEST, WIDE, WIDE + 64, WIDE + length].map(beside).concat());
    widths.extend((0..at_random).map(|_| 1 + random.number_below(length + 1)));
    let mut list = Vec::new();
    for w in widths {
        let most = model::fullest(strip.strokes(), w).unwrap_or(1);
        let numbers = [1, most, w, WIDE + most].map(beside).concat();
        list.extend(numbers.into_iter().map(|m| Burst { w, m }));
    }
    list.extend(FAR.map(|m| Burst { w: 64, m }));
    list
}

/// Every length and density, with zeros, ones or anything past the length.
#[test]
fn strips() {
    let mut cases = Cases::new("bursts", "strips", 704);
    for (capacity, at_random) in [(512, 10), (1024, 10), (4096, 5), (ONE_LEVEL, 2), (TWO_LEVELS, 2)] {
        let drawn_lengths = [None; 4];
        for given in lengths(capacity).into_iter().map(Some).chain(drawn_lengths) {
            for share in SHARES {
                let pasts: &[usize] = if capacity > 4096 { &[500] } else { &[0, 500, 1000] };
                for &past in pasts {
                    cases.run(|random| {
                        let length = given.unwrap_or_else(|| random.number_below(capacity));
                        let mut strip = drawn(random, capacity, length, share, past);
                        for burst in bursts(random, &strip, at_random) {
                            let _ = strip.compare(burst);
                        }
                    });
                }
            }
        }
    }
}

/// Totals good and bad: up to the length the answers are right under each, above it all is refused.
#[test]
fn any_total() {
    let mut cases = Cases::new("bursts", "any_total", 707);
    for given in lengths(1024).into_iter().map(Some).chain([None; 6]) {
        for share in SHARES {
            cases.run(|random| {
                let length = given.unwrap_or_else(|| random.number_below(1024));
                let mut strip = drawn(random, 1024, length, share, 500);
                for total in strip.strip.totals() {
                    strip.strip.handle.total = total;
                    let w = 1 + random.number_below(length + 1);
                    for m in [0, 1, w, w + 1] {
                        let _ = strip.compare(Burst { w, m });
                    }
                    strip.compare_fullest(w);
                }
            });
        }
    }
}

/// The ones of a burst: m of them over w strokes from s on, at the first of these and at the last, so that no other window of
/// w holds m.
fn planted(s: u64, w: u64, m: u64) -> impl Iterator<Item = u64> {
    (0..m).map(move |k| s + if m > 1 { k * (w - 1) / (m - 1) } else { 0 })
}

/// Starts of windows of w strokes: at the beginning, in the middle, in the last 600 positions every `step`-th, at the end.
fn places(length: u64, w: u64, step: usize) -> Vec<u64> {
    let last = length - w;
    let mut list = vec![0, 1, 63, 64, 65, 511, 512, 513, 4096, length / 2, length / 2 + 77, (1 << 20) - w];
    list.extend((last - 600..last).step_by(step));
    list.extend([last - 65, last - 64, last - 63, last - 2, last - 1, last]);
    list
}

/// Long strips with one burst alone, and with that burst but for its last misfire.
#[test]
fn long_strips() {
    let capacity = (1 << 20) + 5 * 512;
    let mut words = vec![0; word_count(capacity)];
    for (w, m, step) in [
        (1, 1, 61),
        (2, 2, 61),
        (64, 20, 61),
        (100, 2, 61),
        (128, 128, 61),
        (1000, 40, 1),
        (4096, 4000, 61),
        (WIDEST - 1, 9000, 61),
        (WIDEST, 300, 61),
    ] {
        for length in [capacity, capacity - 1, capacity - 64, capacity - 333] {
            for s in places(length, w, step) {
                put(&mut words, planted(s, w, m), true);
                for wanted in [Ok(s), Err(NotFound)] {
                    let told = Burst { w, m }.told(Handle::new(capacity, length), &mut Lent::new(&words));
                    assert_eq!(told, wanted, "burst({w}, {m}) of {length} strokes, planted at {s}");
                    put(&mut words, [s + w - 1], false);
                }
                put(&mut words, planted(s, w, m), false);
            }
        }
    }
}

/// Long strips with a burst among other misfires, and with anything past the length.
#[test]
fn long_strips_with_noise() {
    let mut cases = Cases::new("bursts", "long_strips_with_noise", 705);
    let capacity = (1 << 20) + 3 * 512;
    for (share, w, more) in [(10, 1000, 60), (10, 64, 20), (400, 4100, 900), (30, WIDEST, 1500), (990, 128, 128)] {
        for place in [0, 1, 2, 3] {
            cases.run(|random| {
                let length = capacity - random.number_below(700);
                let mut bits = random.bits(capacity, share);
                let s = [0, random.number_below(length - w), length - w - random.number_below(600), length - w][place];
                planted(s, w, more).for_each(|p| bits[p as usize] = true);
                let mut strip = Counted::new(Strip::new(length, bits));
                strip.compare_fullest(w);
                for burst in [Burst { w, m: more }, Burst { w: w / 2, m: w / 2 }, Burst { w: 63, m: 40 }] {
                    let _ = strip.compare(burst);
                }
            });
        }
    }
}

/// The longest strip, with one burst alone at its beginning, in its middle and at its end; then of a length that leaves the
/// last stroke of it out.
#[test]
fn largest_strip() {
    let mut words = vec![0; word_count(LARGEST)];
    for (w, m) in [(1000, 40), (WIDEST, WIDEST)] {
        let last = LARGEST - w;
        for s in [0, LARGEST / 2 + 1, last] {
            put(&mut words, planted(s, w, m), true);
            let mut lent = Lent::new(&words);
            let mut told = |length| Burst { w, m }.told(Handle::new(LARGEST, length), &mut lent);
            assert_eq!(told(LARGEST), Ok(s));
            assert_eq!(told(s + w - 1), Err(NotFound));
            put(&mut words, planted(s, w, m), false);
        }
    }
}

// ---- refusals

/// Asserts that it is refused so, whatever is sought.
fn all_refuse(strip: &mut Strip, refusal: Refusal) {
    let n = strip.handle.length;
    for w in [0, 1, 64, n, n.wrapping_add(1), WIDEST, WIDEST + 1, WIDE + 1, u64::MAX] {
        for m in [0, 1, 64, w, w.wrapping_add(1), WIDE + 1, u64::MAX] {
            expect(w, m, strip, Err(refusal));
        }
    }
}

#[test]
fn bad_handles() {
    for h in borders::bad_handles() {
        for count in [0, 7, 8, 9, 16] {
            for bit in [false, true] {
                all_refuse(&mut Strip::under(h, vec![bit; 64 * count]), BadHandle);
            }
        }
    }
}

#[test]
fn wrong_word_counts() {
    for capacity in [512, 1024, 4096, TWO_LEVELS] {
        let words = word_count(capacity);
        for count in [0, 1, words - 1, words + 1, 2 * words, 64 * words] {
            for length in [0, 1, capacity - 1, capacity] {
                for bit in [false, true] {
                    all_refuse(&mut Strip::of_words(capacity, length, count, bit), WordCount);
                }
            }
        }
    }
    all_refuse(&mut Strip::of_words(LARGEST, 100, 8, true), WordCount);
}

/// A width and a number of misfires in range, and out of it: on strips that have such a window, that have none, and that are
/// too short.
#[test]
fn bad_windows() {
    let (mut ones, mut none) = (Strip::filled(2 * WIDEST, 70_000, true), Strip::filled(2 * WIDEST, 70_000, false));
    for strip in [&mut ones, &mut none, &mut Strip::filled(512, 300, true)] {
        let cut = [WIDE, WIDE + 1, WIDE + 64, WIDE + WIDEST, (1 << 48) + 64, (1 << 63) + 64];
        for w in [0, WIDEST + 1, WIDEST + 64, 2 * WIDEST, 1 << 31].into_iter().chain(cut).chain(FAR) {
            for m in [0, 1, 64, 300, WIDEST, w.wrapping_sub(1), w, w.wrapping_add(1), w % WIDE, u64::MAX] {
                expect(w, m, strip, Err(BadWindow));
            }
        }
        for w in [1, 2, 63, 64, 65, 300, 301, 4096, WIDEST - 1, WIDEST] {
            let cut = [WIDE, WIDE + 1, WIDE + w, WIDEST + w, (1 << 16) + 1, (1 << 48) + 1, 1 << 63];
            for m in [0, w + 1, w + 64, 2 * w + 1].into_iter().chain(cut).chain(FAR).filter(|m| *m > w || *m == 0) {
                expect(w, m, strip, Err(BadWindow));
            }
        }
    }
    for w in [1, 2, 63, 64, 65, WIDEST - 1, WIDEST] {
        for m in [1, w / 2, w - 1, w].into_iter().filter(|m| *m > 0) {
            let told = Burst { w, m }.told(ones.handle, &mut ones.lent);
            assert!(told.is_ok_and(|s| s <= 70_000 - w), "burst({w}, {m}) of ones: {told:?}");
            expect(w, m, &mut none, Err(NotFound));
        }
    }
}

/// Every set of faults at once: the first in the order 1, 2, 17, 6 is the answer.
#[test]
fn first_refusal_wins() {
    for faults in 0..16 {
        let has = |n: u32| faults / 2u32.pow(n) % 2 == 1;
        for way in 0..HANDLE_FAULTS {
            let fault = |n: u32| has(n).then_some(way);
            let good = Handle::new(1024, 700);
            let mut strip = Strip::faulty(good, fault(0), fault(1), !has(3));
            let order = [(has(0), BadHandle), (has(1), WordCount), (has(2), BadWindow), (has(3), NotFound)];
            let wanted = order.into_iter().find(|(has, _)| *has).map_or(Ok(0), |(_, refusal)| Err(refusal));
            let (w, m) = if has(2) {
                [(0, 1), (WIDEST + 1, 1), (700, 0), (700, 701), (WIDE + 700, 700), (700, WIDE + 1)][way % 6]
            } else {
                (700, [1, 2, 350, 699, 700, 64][way % 6])
            };
            expect(w, m, &mut strip, wanted);
        }
    }
}

/// Pairs of faults, each by itself: which of the two is told.
#[test]
fn pairs_of_refusals() {
    let good = || Strip::filled(512, 300, true);
    let handle = || Strip::filled(512, 513, true);
    let words = || Strip::of_words(512, 300, 7, true);
    // 1 before 2, 17 and 6
    expect(64, 64, &mut Strip::of_words(512, 513, 7, true), Err(BadHandle));
    for (w, m) in [(0, 1), (64, 65), (64, 0), (WIDEST + 1, 1), (514, 514), (WIDEST, 1)] {
        expect(w, m, &mut handle(), Err(BadHandle));
        expect(w, m, &mut Strip::filled(512, 513, false), Err(BadHandle));
        // 2 before 17 and 6
        expect(w, m, &mut words(), Err(WordCount));
        expect(w, m, &mut Strip::of_words(512, 300, 9, false), Err(WordCount));
    }
    // 17 before 6: too short for the width, no ones at all, no strokes at all
    for mut strip in [good(), Strip::filled(512, 300, false), Strip::filled(512, 0, true)] {
        for (w, m) in [(301, 0), (301, 302), (WIDEST + 1, 1), (WIDEST, WIDEST + 1), (64, 65), (u64::MAX, 1), (0, 0)] {
            expect(w, m, &mut strip, Err(BadWindow));
        }
    }
    // 6 by itself
    for (w, m) in [(301, 1), (301, 301), (WIDEST, 1), (WIDEST, WIDEST)] {
        expect(w, m, &mut good(), Err(NotFound));
    }
    expect(300, 300, &mut good(), Ok(0));
}

/// Where no words are lent, the pointer may be null.
#[test]
fn no_words() {
    for (capacity, refusal) in [(512, WordCount), (0, BadHandle)] {
        for (w, m) in [(1, 1), (0, 0), (WIDEST + 1, 1)] {
            // SAFETY: nothing is lent.
            let told = unsafe { Burst { w, m }.ask((Handle::new(capacity, 0), null(), 0)) };
            assert_eq!(told, Err(refusal), "burst({w}, {m}) under capacity {capacity}");
        }
    }
}

// ---- any strips

/// Strips and bursts drawn at random: the call tells all that it can.
#[test]
fn any_strips() {
    let (mut cases, mut tally) = (Cases::new("bursts", "any_strips", 706), Tally::default());
    for _ in 0..3000 {
        cases.run(|random| {
            let capacity = 512 * (1 + random.number_below(10));
            let length = if random.below(4) == 0 { capacity } else { random.number_below(capacity + 1) };
            let share = SHARES[random.below(SHARES.len())];
            let past = [0, 500, 1000][random.below(3)];
            let strip = drawn(random, capacity, length, share, past);
            let counts = strip.strokes().to_vec();
            let mut strip = Counted::new(strip.strip.altered(random));
            for number in 0..60 {
                at_call(number);
                tally.note_burst(strip.compare(draw::burst(random, &counts)));
            }
        });
    }
    if cases.all() {
        tally.expect_bursts("any strips");
    }
    tally.print(&format!("any strips with bursts, seed {}", cases.seed()));
}
