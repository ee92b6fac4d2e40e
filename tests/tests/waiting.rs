//! The two calls on a strip and its waiting strip: on short strips against all outcomes one by one, on long ones against a
//! walk over the cells, and against answers worked out by hand.
use std::collections::BTreeSet;
use std::ptr::null;
use strip_tests::borders::{self, beside, lengths, FAR, LARGEST, ONE_LEVEL, TWO_LEVELS, WIDE};
use strip_tests::cases::{at_call, Cases};
use strip_tests::model::{self, word_count};
use strip_tests::random::Random;
use strip_tests::record::UNTOUCHED;
use strip_tests::refusal::{Bounded, Bounds, Refusal};
use strip_tests::strip::{both_handles, both_totals, Strip, HANDLE_FAULTS};
use strip_tests::tally::Tally;
use strip_tests::waiting::{Waiting, WAITING};
use strip_tests::{draw, Handle, Lent};
use Refusal::{BadHandle, NotFound, Position, Unequal, WordCount};
use Waiting::{Count, Find};

/// From the least to the most, or from the earliest to the latest.
fn from_to(low: u64, high: u64) -> Bounded {
    Ok(Bounds { low, high: Some(high) })
}

/// The earliest; some outcome has no k-th misfire.
fn from(low: u64) -> Bounded {
    Ok(Bounds { low, high: None })
}

fn ask(call: Waiting, strip: &mut Strip, waiting: &mut Strip) -> Bounded {
    call.told((strip.handle, &mut strip.lent), (waiting.handle, &mut waiting.lent))
}

/// Asks, and asserts that the answer is this.
fn expect(call: Waiting, strip: &mut Strip, waiting: &mut Strip, wanted: Bounded) {
    let told = ask(call, strip, waiting);
    assert_eq!(told, wanted, "{call:?} {}", both_handles(strip, waiting));
}

/// Asks, and compares with the walk.
fn compare(call: Waiting, strip: &mut Strip, waiting: &mut Strip) -> Bounded {
    let wanted = call.owed((strip.handle, &strip.bits), (waiting.handle, &waiting.bits));
    expect(call, strip, waiting, wanted);
    wanted
}

/// Asks, and compares with all outcomes, and the walk with them.
fn compare_over(outcomes: &[Vec<bool>], call: Waiting, strip: &mut Strip, waiting: &mut Strip) {
    let wanted = call.owed_over(outcomes);
    assert_eq!(compare(call, strip, waiting), wanted, "{call:?} over all outcomes {}", both_handles(strip, waiting));
}

/// Both calls at these numbers.
fn both_at(numbers: impl IntoIterator<Item = u64>) -> impl Iterator<Item = Waiting> {
    numbers.into_iter().flat_map(|x| [Count(x), Find(x)])
}

/// The ones that every outcome has, and those that some outcome has, below the length.
fn ones(strip: &Strip, waiting: &Strip) -> (u64, u64) {
    let strokes = || strip.strokes().iter().zip(waiting.strokes());
    let sure = strokes().filter(|(bit, mark)| **bit && !**mark).count();
    let possible = strokes().filter(|(bit, mark)| **bit || **mark).count();
    (sure as u64, possible as u64)
}

// ---- answers worked out by hand

const A: &str = "01101101010101110";
const MARKS: &str = "00100010001000011";

#[test]
fn strip_a() {
    let least = [0, 0, 1, 1, 1, 2, 3, 3, 4, 4, 5, 5, 6, 6, 7, 8, 8, 8];
    let most = [0, 0, 1, 2, 2, 3, 4, 5, 6, 6, 7, 8, 9, 9, 10, 11, 12, 13];
    let earliest = [1, 2, 4, 5, 6, 7, 9, 10, 11, 13, 14, 15, 16];
    let latest = [1, 4, 5, 7, 9, 11, 13, 14];
    // as it is, and with other bits under the marks
    for text in [A, "01001101010101100", "01101111011101111", "01001111010101101"] {
        for (past, past_marks) in [(false, false), (false, true), (true, false), (true, true)] {
            let (mut a, mut marks) = (Strip::from_text(text, past), Strip::from_text(MARKS, past_marks));
            for (i, (least, most)) in (0..).zip(least.into_iter().zip(most)) {
                expect(Count(i), &mut a, &mut marks, from_to(least, most));
            }
            for (k, &p) in earliest.iter().enumerate() {
                let wanted = latest.get(k).map_or(from(p), |last| from_to(p, *last));
                expect(Find(k as u64), &mut a, &mut marks, wanted);
            }
            expect(Count(18), &mut a, &mut marks, Err(Position));
            expect(Find(13), &mut a, &mut marks, Err(NotFound));
        }
    }
}

#[test]
fn empty_strips() {
    for (bit, mark) in [(false, false), (false, true), (true, false), (true, true)] {
        let (mut strip, mut waiting) = (Strip::filled(512, 0, bit), Strip::filled(512, 0, mark));
        expect(Count(0), &mut strip, &mut waiting, from_to(0, 0));
        expect(Find(0), &mut strip, &mut waiting, Err(NotFound));
        for x in [1, 64, 512].into_iter().chain(FAR) {
            expect(Count(x), &mut strip, &mut waiting, Err(Position));
            expect(Find(x), &mut strip, &mut waiting, Err(NotFound));
        }
    }
}

/// One stroke waits, at each position: over zeros that have one misfire before it or after it, and over ones.
#[test]
fn single_mark() {
    let capacity = 1024;
    for p in 0..capacity {
        let mut marks = vec![false; capacity as usize];
        marks[p as usize] = true;
        let mut waiting = Strip::new(capacity, marks);
        for under in [false, true] {
            let with = |bit: bool, one: u64| {
                let mut bits = vec![bit; capacity as usize];
                (bits[one as usize], bits[p as usize]) = (true, under);
                Strip::new(capacity, bits)
            };
            let mut zeros = with(false, p);
            for i in [0, p / 64 * 64, p] {
                expect(Count(i), &mut zeros, &mut waiting, from_to(0, 0));
            }
            for i in [p + 1, capacity] {
                expect(Count(i), &mut zeros, &mut waiting, from_to(0, 1));
            }
            expect(Find(0), &mut zeros, &mut waiting, from(p));
            expect(Find(1), &mut zeros, &mut waiting, Err(NotFound));
            for q in [0, p.saturating_sub(64), p.saturating_sub(1)].into_iter().filter(|q| *q < p) {
                let mut before = with(false, q);
                expect(Count(p), &mut before, &mut waiting, from_to(1, 1));
                expect(Count(p + 1), &mut before, &mut waiting, from_to(1, 2));
                expect(Find(0), &mut before, &mut waiting, from_to(q, q));
                expect(Find(1), &mut before, &mut waiting, from(p));
                expect(Find(2), &mut before, &mut waiting, Err(NotFound));
            }
            for q in [p + 1, p + 64, capacity - 1].into_iter().filter(|q| (p + 1..capacity).contains(q)) {
                let mut after = with(false, q);
                expect(Count(q), &mut after, &mut waiting, from_to(0, 1));
                expect(Count(q + 1), &mut after, &mut waiting, from_to(1, 2));
                expect(Find(0), &mut after, &mut waiting, from_to(p, q));
                expect(Find(1), &mut after, &mut waiting, from(q));
                expect(Find(2), &mut after, &mut waiting, Err(NotFound));
            }
            let mut ones = with(true, p);
            expect(Count(p), &mut ones, &mut waiting, from_to(p, p));
            expect(Count(p + 1), &mut ones, &mut waiting, from_to(p, p + 1));
            expect(Count(capacity), &mut ones, &mut waiting, from_to(capacity - 1, capacity));
            let last = capacity - 1;
            for k in [0, p.saturating_sub(1), p, p + 1, last].into_iter().filter(|k| *k <= last) {
                // from p on the k-th misfire is one later where p fires
                let wanted = if k < p { from_to(k, k) } else { from_to(k, k + 1) };
                expect(Find(k), &mut ones, &mut waiting, if k == last { from(k) } else { wanted });
            }
            expect(Find(capacity), &mut ones, &mut waiting, Err(NotFound));
            // past the length the mark is not there
            for (strip, number) in [(&mut zeros, 0), (&mut ones, p)] {
                (strip.handle.length, waiting.handle.length) = (p, p);
                expect(Count(p), strip, &mut waiting, from_to(number, number));
                expect(Count(p + 1), strip, &mut waiting, Err(Position));
                expect(Find(number), strip, &mut waiting, Err(NotFound));
            }
            waiting.handle.length = capacity;
        }
    }
}

/// All strokes wait, or none, on strips all of ones or zeros, with the opposite past the length.
#[test]
fn extremes() {
    for (capacity, length) in [
        (512, 1),
        (512, 63),
        (512, 64),
        (512, 65),
        (512, 511),
        (512, 512),
        (1024, 513),
        (TWO_LEVELS, TWO_LEVELS - 1),
        (LARGEST, LARGEST - 1),
        (LARGEST, LARGEST),
    ] {
        let (h, n) = (Handle::new(capacity, length), length);
        let mut words = vec![u64::MAX; word_count(capacity)];
        for (place, word) in (0..).zip(&mut words) {
            let ones = length.saturating_sub(64 * place).min(64);
            *word = if ones == 64 { u64::MAX } else { (1 << ones) - 1 };
        }
        let opposite: Vec<u64> = words.iter().map(|word| !word).collect();
        let [mut full, mut none, mut all] = [&words, &opposite, &words].map(|words| Lent::new(words));
        let mut expect = |call: Waiting, waiting: &mut Lent, of_full: Bounded, of_none: Bounded| {
            assert_eq!(call.told((h, &mut full), (h, waiting)), of_full, "{call:?} of ones under {h:?}");
            assert_eq!(call.told((h, &mut none), (h, waiting)), of_none, "{call:?} of zeros under {h:?}");
        };
        // all wait: the bits do not matter
        expect(Count(n), &mut all, from_to(0, n), from_to(0, n));
        expect(Count(n - 1), &mut all, from_to(0, n - 1), from_to(0, n - 1));
        for k in [0, n / 2, n - 1] {
            expect(Find(k), &mut all, from(k), from(k));
        }
        // none waits
        let mut no_mark = Lent::new(&opposite);
        expect(Count(n), &mut no_mark, from_to(n, n), from_to(0, 0));
        for k in [0, n / 2, n - 1] {
            expect(Find(k), &mut no_mark, from_to(k, k), Err(NotFound));
        }
        for waiting in [&mut all, &mut no_mark] {
            expect(Find(n), waiting, Err(NotFound), Err(NotFound));
            expect(Count(n + 1), waiting, Err(Position), Err(Position));
        }
    }
}

// ---- short strips, over all outcomes one by one

/// The bits of a number, so many.
fn bits_of(number: u64, count: u64) -> Vec<bool> {
    (0..count).map(|p| number >> p & 1 == 1).collect()
}

/// Bits at the start of words, all the same bits past them.
fn padded(mut bits: Vec<bool>, past: bool) -> Strip {
    let length = model::length(&bits);
    bits.resize(512, past);
    Strip::new(length, bits)
}

/// Every strip of up to five strokes with every set of marks: each i and each k, with zeros or ones past the length.
#[test]
fn every_short_strip() {
    for length in 0..=5 {
        let all: Vec<Vec<bool>> = (0..1 << length).map(|number| bits_of(number, length)).collect();
        for (bits, marks) in all.iter().flat_map(|bits| all.iter().map(move |marks| (bits, marks))) {
            let outcomes = model::outcomes(bits, marks);
            // those of all strips of the length that agree with this one wherever there is no mark
            let agrees = |other: &&Vec<bool>| (0..bits.len()).all(|p| marks[p] || other[p] == bits[p]);
            let agreeing: BTreeSet<&Vec<bool>> = all.iter().filter(agrees).collect();
            assert!(agreeing.into_iter().eq(outcomes.iter().collect::<BTreeSet<_>>()));
            for (past, past_marks) in [(false, false), (false, true), (true, false), (true, true)] {
                let (mut strip, mut waiting) = (padded(bits.clone(), past), padded(marks.clone(), past_marks));
                for call in both_at((0..length + 3).chain([WIDE, u64::MAX])) {
                    compare_over(&outcomes, call, &mut strip, &mut waiting);
                }
            }
        }
    }
}

/// Strips of six to twelve strokes: each i and each k.
#[test]
fn short_strips() {
    let mut cases = Cases::new("waiting", "short_strips", 601);
    for length in 6..=12 {
        for _ in 0..150 {
            cases.run(|random| {
                let [share, marked] = [0; 2].map(|_| [100, 300, 500, 700, 900][random.below(5)]);
                let (bits, marks) = (random.bits(length, share), random.bits(length, marked));
                let outcomes = model::outcomes(&bits, &marks);
                let past = random.below(4);
                let (mut strip, mut waiting) = (padded(bits, past % 2 == 1), padded(marks, past / 2 == 1));
                for call in both_at((0..length + 3).chain(FAR)) {
                    compare_over(&outcomes, call, &mut strip, &mut waiting);
                }
            });
        }
    }
}

/// Longer strips of which up to eight strokes wait, around the ends of words and blocks.
#[test]
fn few_marks() {
    let mut cases = Cases::new("waiting", "few_marks", 602);
    for length in [63, 64, 65, 127, 128, 130, 192, 511, 512, 513, 640] {
        for share in [0, 20, 500, 980, 1000] {
            for _ in 0..4 {
                cases.run(|random| {
                    let (bits, mut marks) = (random.bits(1024, share), vec![false; 1024]);
                    marks[length as usize..].copy_from_slice(&random.bits(1024 - length, 500));
                    for _ in 0..random.below(9) {
                        let edge = 64 * random.number_below(length / 64 + 1) + random.number_below(8);
                        marks[edge.saturating_sub(4).min(length - 1) as usize] = true;
                    }
                    let (mut strip, mut waiting) = (Strip::new(length, bits), Strip::new(length, marks));
                    let outcomes = model::outcomes(strip.strokes(), waiting.strokes());
                    let (sure, possible) = ones(&strip, &waiting);
                    let marked = (0..length).filter(|p| waiting.bits[*p as usize]);
                    let mut list: Vec<u64> =
                        [0, sure, possible, length].into_iter().chain(marked).flat_map(beside).collect();
                    list.extend(sure..possible);
                    list.extend([0; 4].map(|_| random.number_below(length)));
                    for call in both_at(list) {
                        compare_over(&outcomes, call, &mut strip, &mut waiting);
                    }
                });
            }
        }
    }
}

// ---- strips of every length and density, against the walk

/// How the marks are drawn over the strip: so many in 1,000 strokes, whatever their bits, or of those with one bit alone.
#[derive(Clone, Copy)]
enum Marks {
    Any(usize),
    OverOnes(usize),
    OverZeros(usize),
}

impl Marks {
    fn draw(self, random: &mut Random, bits: &[bool]) -> Vec<bool> {
        let mut over = |share: usize, which: [bool; 2]| -> Vec<bool> {
            bits.iter().map(|bit| which.contains(bit) && random.below(1000) < share).collect()
        };
        match self {
            Marks::Any(share) => over(share, [false, true]),
            Marks::OverOnes(share) => over(share, [true; 2]),
            Marks::OverZeros(share) => over(share, [false; 2]),
        }
    }
}

/// None, few, half and all ones, none, few, half and all of them waiting; half ones, and marks over ones or zeros alone.
const DENSITIES: [(usize, Marks); 20] = [
    (0, Marks::Any(0)),
    (0, Marks::Any(20)),
    (0, Marks::Any(500)),
    (0, Marks::Any(1000)),
    (20, Marks::Any(0)),
    (20, Marks::Any(20)),
    (20, Marks::Any(500)),
    (20, Marks::Any(1000)),
    (500, Marks::Any(0)),
    (500, Marks::Any(20)),
    (500, Marks::Any(500)),
    (500, Marks::Any(1000)),
    (1000, Marks::Any(0)),
    (1000, Marks::Any(20)),
    (1000, Marks::Any(500)),
    (1000, Marks::Any(1000)),
    (500, Marks::OverOnes(300)),
    (500, Marks::OverOnes(1000)),
    (500, Marks::OverZeros(300)),
    (500, Marks::OverZeros(1000)),
];

/// Ones in 1,000 past the length, of the strip and of its waiting strip.
const PAST: [(usize, usize); 6] = [(0, 0), (500, 0), (0, 500), (500, 500), (1000, 0), (1000, 1000)];

/// A strip and its waiting strip of a length under a capacity.
fn drawn(random: &mut Random, capacity: u64, length: u64, density: (usize, Marks), past: (usize, usize)) -> [Strip; 2] {
    let mut bits = random.bits(length, density.0);
    let mut marks = density.1.draw(random, &bits);
    bits.extend(random.bits(capacity - length, past.0));
    marks.extend(random.bits(capacity - length, past.1));
    [bits, marks].map(|bits| Strip::new(length, bits))
}

/// The strip with the opposite bits under all marks.
fn flipped(strip: &Strip, waiting: &Strip) -> Strip {
    let bits = strip.bits.iter().zip(&waiting.bits).map(|(bit, mark)| bit != mark).collect();
    Strip::new(strip.handle.length, bits)
}

/// Counts around 0, the ends of words and blocks, the length and the capacity; finds around the first, the borders between
/// the three kinds of answer and the length; both far past, and some at random.
fn calls(random: &mut Random, strip: &Strip, waiting: &Strip, at_random: usize) -> Vec<Waiting> {
    let Handle { capacity, length, .. } = strip.handle;
    let (sure, possible) = ones(strip, waiting);
    let mut list: Vec<Waiting> = both_at(FAR).collect();
    let ends = [0, 64, 512, length / 64 * 64, length, capacity, WIDE, WIDE + length];
    list.extend(ends.into_iter().flat_map(beside).map(Count));
    let ranks = [0, sure, possible, length, WIDE, WIDE + sure, WIDE + possible];
    list.extend(ranks.into_iter().flat_map(beside).map(Find));
    for _ in 0..at_random {
        list.push(Count(random.number_below(length + 2)));
        list.extend([Find(random.number_below(sure + 1)), Find(sure + random.number_below(possible - sure + 1))]);
    }
    list
}

/// Every length and density, with zeros, ones or anything past the length of either. The bits under the marks do not matter.
#[test]
fn strips() {
    let mut cases = Cases::new("waiting", "strips", 603);
    for (capacity, at_random) in [(512, 20), (1024, 20), (4096, 10), (ONE_LEVEL, 3), (TWO_LEVELS, 3)] {
        let drawn_lengths = [None; 6];
        for given in lengths(capacity).into_iter().map(Some).chain(drawn_lengths) {
            for density in DENSITIES {
                let pasts = if capacity > 4096 { &PAST[3..4] } else { &PAST };
                for &past in pasts {
                    cases.run(|random| {
                        let length = given.unwrap_or_else(|| random.number_below(capacity));
                        let [mut strip, mut waiting] = drawn(random, capacity, length, density, past);
                        let mut other = flipped(&strip, &waiting);
                        for call in calls(random, &strip, &waiting, at_random) {
                            let wanted = compare(call, &mut strip, &mut waiting);
                            expect(call, &mut other, &mut waiting, wanted);
                        }
                    });
                }
            }
        }
    }
}

/// With no mark the least and the most are the count, the earliest and the latest the find.
#[test]
fn no_marks() {
    let mut cases = Cases::new("waiting", "no_marks", 604);
    for length in lengths(1024) {
        for share in [0, 20, 500, 1000] {
            cases.run(|random| {
                let [mut strip, mut waiting] = drawn(random, 1024, length, (share, Marks::Any(0)), (500, 500));
                for x in 0..length + 2 {
                    let count = model::rank(strip.strokes(), 1, x).and_then(|number| from_to(number, number));
                    let find = model::select(strip.strokes(), 1, x).and_then(|p| from_to(p, p));
                    expect(Count(x), &mut strip, &mut waiting, count);
                    expect(Find(x), &mut strip, &mut waiting, find);
                }
            });
        }
    }
}

/// With every stroke marked, whatever the bits, the k-th misfire is at k at the earliest, and may be none.
#[test]
fn all_marked() {
    let mut cases = Cases::new("waiting", "all_marked", 605);
    for length in lengths(1024) {
        for share in [0, 20, 500, 1000] {
            cases.run(|random| {
                let [mut strip, mut waiting] = drawn(random, 1024, length, (share, Marks::Any(1000)), (500, 500));
                for x in 0..length {
                    expect(Count(x), &mut strip, &mut waiting, from_to(0, x));
                    expect(Find(x), &mut strip, &mut waiting, from(x));
                }
                expect(Count(length), &mut strip, &mut waiting, from_to(0, length));
                expect(Count(length + 1), &mut strip, &mut waiting, Err(Position));
                expect(Find(length), &mut strip, &mut waiting, Err(NotFound));
            });
        }
    }
}

/// Totals good and bad of either strip: up to the length the answers are the same under each, above it all is refused.
#[test]
fn any_total() {
    let mut cases = Cases::new("waiting", "any_total", 610);
    for given in lengths(1024).into_iter().map(Some).chain([None; 4]) {
        for density in [(0, Marks::Any(0)), (20, Marks::Any(500)), (1000, Marks::Any(1000))] {
            cases.run(|random| {
                let length = given.unwrap_or_else(|| random.number_below(1024));
                let [mut strip, mut waiting] = drawn(random, 1024, length, density, (500, 500));
                for (total, other) in both_totals(&strip, &waiting) {
                    (strip.handle.total, waiting.handle.total) = (total, other);
                    for call in both_at([0, random.number_below(length + 1), length, length + 1]) {
                        let _ = compare(call, &mut strip, &mut waiting);
                    }
                }
            });
        }
    }
}

/// Every i and every k of small strips.
#[test]
fn every_position() {
    let mut cases = Cases::new("waiting", "every_position", 606);
    for (capacity, length) in [(512, 0), (512, 1), (512, 63), (512, 130), (512, 192), (512, 512), (1024, 513)] {
        for density in DENSITIES {
            cases.run(|random| {
                let [mut strip, mut waiting] = drawn(random, capacity, length, density, (500, 500));
                for call in both_at(0..=capacity + 1) {
                    let _ = compare(call, &mut strip, &mut waiting);
                }
            });
        }
    }
}

/// Every k on strips whose k are large enough for a search to pass words that cannot hold the misfire.
#[test]
fn every_find() {
    let mut cases = Cases::new("waiting", "every_find", 613);
    for density in DENSITIES {
        cases.run(|random| {
            let [mut strip, mut waiting] = drawn(random, 4096, 4095, density, (500, 500));
            for k in 0..=4097 {
                let _ = compare(Find(k), &mut strip, &mut waiting);
            }
        });
    }
}

/// The longest strips, half of them ones and a quarter waiting at random; then the same words under a length that ends inside
/// a word.
#[test]
fn largest_strips() {
    let mut cases = Cases::new("waiting", "largest_strips", 607);
    cases.run(|random| {
        let words: Vec<u64> = (0..word_count(LARGEST)).map(|_| random.number()).collect();
        let marks: Vec<u64> = words.iter().map(|_| random.number() & random.number()).collect();
        let (mut strip, mut waiting) = (Strip::from_words(LARGEST, 0, &words), Strip::from_words(LARGEST, 0, &marks));
        for length in [LARGEST, LARGEST - 77] {
            (strip.handle.length, waiting.handle.length) = (length, length);
            let some = random.number_below(length);
            let (sure, possible) = ones(&strip, &waiting);
            expect(Count(length), &mut strip, &mut waiting, from_to(sure, possible));
            let _ = compare(Count(some), &mut strip, &mut waiting);
            for k in [sure / 2, sure - 1, sure, possible - 1] {
                let Bounds { high, .. } = compare(Find(k), &mut strip, &mut waiting).unwrap();
                assert_eq!(high.is_some(), k < sure);
            }
            expect(Find(possible), &mut strip, &mut waiting, Err(NotFound));
            expect(Count(length + 1), &mut strip, &mut waiting, Err(Position));
        }
        waiting.handle.length = LARGEST;
        for call in WAITING {
            expect(call, &mut strip, &mut waiting, Err(Unequal));
            expect(call, &mut waiting, &mut strip, Err(Unequal));
        }
    });
}

/// The same words lent for both strips, and words that overlap.
#[test]
fn one_buffer() {
    let mut cases = Cases::new("waiting", "one_buffer", 608);
    for length in lengths(1024) {
        cases.run(|random| {
            let bits = random.bits(2048, 500);
            let mut lent = Lent::new(&model::words_of(&bits));
            let h = Handle::new(1024, length);
            let strokes = &bits[..length as usize];
            for x in 0..length + 2 {
                // each one of the strip waits
                let count = model::rank(strokes, 1, x).and_then(|number| from_to(0, number));
                let find = model::select(strokes, 1, x).and_then(from);
                assert_eq!(Count(x).told_of_one((h, 0, 16), (h, 0, 16), &mut lent), count);
                assert_eq!(Find(x).told_of_one((h, 0, 16), (h, 0, 16), &mut lent), find);
            }
            for (at, marks_at) in [(0, 1), (1, 0), (0, 8), (8, 3), (16, 0), (0, 16)] {
                let [xs, ys] = [at, marks_at].map(|from| &bits[64 * from..64 * (from + 16)]);
                for call in both_at([0, 1, length / 4, length / 2, length, length + 1]) {
                    let told = call.told_of_one((h, at, 16), (h, marks_at, 16), &mut lent);
                    assert_eq!(told, call.owed((h, xs), (h, ys)), "{call:?} from the words {at} and {marks_at}");
                }
            }
            // as a strip of its own each is judged by its own length
            let other = Handle { length: if length == 0 { 1 } else { length - 1 }, ..h };
            let above = Handle { length: 1025, ..h };
            for call in both_at([0, 1, length, 1025]) {
                let mut told = |h: Handle, g: Handle| call.told_of_one((h, 0, 16), (g, 0, 16), &mut lent);
                assert_eq!([told(h, other), told(other, h)], [Err(Unequal); 2]);
                assert_eq!([told(h, above), told(above, h)], [Err(BadHandle); 2]);
            }
        });
    }
}

// ---- refusals

/// Asserts that both calls refuse alike, whatever their argument.
fn all_refuse(strip: &mut Strip, waiting: &mut Strip, refusal: Refusal) {
    let (n, m) = (strip.handle.length, waiting.handle.length);
    for call in both_at([0, 1, 64, n, m, n.max(m).wrapping_add(1), WIDE, u64::MAX]) {
        expect(call, strip, waiting, Err(refusal));
    }
}

/// Asserts that both calls refuse alike, each strip being the other's waiting strip.
fn both_ways_refuse(strip: &mut Strip, waiting: &mut Strip, refusal: Refusal) {
    all_refuse(strip, waiting, refusal);
    all_refuse(waiting, strip, refusal);
}

/// A bad handle beside a good strip, and beside itself.
#[test]
fn bad_handles() {
    for h in borders::bad_handles() {
        for count in [0, 7, 8, 16] {
            let [mut bad, mut same] = [true, false].map(|bit| Strip::under(h, vec![bit; 64 * count]));
            both_ways_refuse(&mut bad, &mut same, BadHandle);
            for good in [(512, 0), (512, 512), (1024, h.length.min(1024))] {
                both_ways_refuse(&mut bad, &mut Strip::filled(good.0, good.1, true), BadHandle);
            }
        }
    }
}

/// A wrong number of words beside a good strip, and beside itself.
#[test]
fn wrong_word_counts() {
    for capacity in [512, 1024, TWO_LEVELS] {
        let words = word_count(capacity);
        for count in [0, 1, words - 1, words + 1, 2 * words, 64 * words] {
            for length in [0, 1, capacity] {
                let mut wrong = Strip::of_words(capacity, length, count, true);
                let mut same = Strip::of_words(capacity, length, count, false);
                both_ways_refuse(&mut wrong, &mut same, WordCount);
                both_ways_refuse(&mut wrong, &mut Strip::filled(capacity, length, true), WordCount);
                both_ways_refuse(&mut wrong, &mut Strip::filled(1536, length.min(1536), true), WordCount);
            }
        }
    }
    let mut wrong = Strip::of_words(LARGEST, 100, 8, true);
    both_ways_refuse(&mut wrong, &mut Strip::filled(512, 100, true), WordCount);
}

/// Each strip is judged on its own handle and its own words.
#[test]
fn each_on_its_own() {
    // each has the words of the other's capacity; the words of both are as many; all words are there, but not in place
    for (nx, ny) in [(16, 8), (8, 8), (16, 16), (24, 0), (0, 24)] {
        let (mut strip, mut waiting) = (Strip::of_words(512, 9, nx, true), Strip::of_words(1024, 9, ny, true));
        both_ways_refuse(&mut strip, &mut waiting, WordCount);
    }
    for (nx, ny) in [(7, 9), (9, 7), (16, 0), (0, 16)] {
        let (mut strip, mut waiting) = (Strip::of_words(512, 9, nx, true), Strip::of_words(512, 9, ny, true));
        both_ways_refuse(&mut strip, &mut waiting, WordCount);
    }
    // a length that only the other's capacity allows
    both_ways_refuse(&mut Strip::filled(512, 600, true), &mut Strip::filled(1024, 600, true), BadHandle);
    // a capacity that would be allowed if it were cut to 32 bits; so too a length
    both_ways_refuse(&mut Strip::filled(512, 9, true), &mut Strip::of_words(WIDE + 512, 9, 8, true), BadHandle);
    both_ways_refuse(&mut Strip::filled(512, 9, true), &mut Strip::filled(512, WIDE + 9, true), BadHandle);
}

/// Two good strips of unequal capacity, or length, or both: 16, whatever is asked.
#[test]
fn unequal() {
    for (strip, waiting) in [
        ((512, 300), (1024, 300)),
        ((512, 0), (1024, 0)),
        ((512, 512), (1024, 512)),
        ((1024, 513), (1536, 513)),
        ((512, 300), (512, 301)),
        ((512, 0), (512, 1)),
        ((512, 0), (512, 512)),
        ((512, 511), (512, 512)),
        ((512, 64), (512, 128)),
        ((1024, 255), (1024, 511)),
        ((512, 300), (1024, 301)),
        ((512, 512), (1024, 1024)),
        ((512, 0), (TWO_LEVELS, TWO_LEVELS)),
        ((ONE_LEVEL, 7), (TWO_LEVELS, 7)),
    ] {
        for (bit, mark) in [(false, false), (true, false), (false, true), (true, true)] {
            let (mut strip, mut waiting) =
                (Strip::filled(strip.0, strip.1, bit), Strip::filled(waiting.0, waiting.1, mark));
            both_ways_refuse(&mut strip, &mut waiting, Unequal);
        }
    }
}

/// Pairs of faults, each by itself: which of the two is told.
#[test]
fn pairs_of_refusals() {
    let good = || Strip::filled(512, 300, true);
    let handle = || Strip::filled(512, 513, true);
    let words = || Strip::of_words(512, 300, 7, true);
    let neither = || Strip::of_words(512, 513, 7, true);
    let short = || Strip::filled(512, 299, true);
    let wide = || Strip::filled(1024, 300, true);
    // 1 before 2 of either strip
    both_ways_refuse(&mut neither(), &mut good(), BadHandle);
    // the strip's before the waiting strip's
    all_refuse(&mut words(), &mut handle(), WordCount);
    all_refuse(&mut handle(), &mut words(), BadHandle);
    all_refuse(&mut words(), &mut neither(), WordCount);
    all_refuse(&mut neither(), &mut words(), BadHandle);
    // the waiting strip's before 16
    all_refuse(&mut good(), &mut Strip::of_words(1024, 300, 15, true), WordCount);
    all_refuse(&mut good(), &mut Strip::of_words(512, 299, 9, true), WordCount);
    all_refuse(&mut good(), &mut Strip::filled(1024, 1025, true), BadHandle);
    all_refuse(&mut good(), &mut Strip::of_words(1000, 300, 15, true), BadHandle);
    // the strip's before 16
    all_refuse(&mut Strip::of_words(1024, 300, 15, true), &mut good(), WordCount);
    all_refuse(&mut Strip::of_words(512, 299, 9, true), &mut good(), WordCount);
    all_refuse(&mut Strip::filled(1024, 1025, true), &mut good(), BadHandle);
    // 16 before 4 and 6
    for mut other in [short(), wide()] {
        for call in both_at([300, 301, 512, 513, WIDE, u64::MAX]) {
            expect(call, &mut good(), &mut other, Err(Unequal));
            expect(call, &mut other, &mut good(), Err(Unequal));
        }
    }
    // each of 1 and 2 before 4 and 6
    for (mut other, refusal) in [(handle(), BadHandle), (words(), WordCount)] {
        for call in both_at([301, 512, 513, 514, WIDE, u64::MAX]) {
            expect(call, &mut good(), &mut other, Err(refusal));
            expect(call, &mut other, &mut good(), Err(refusal));
        }
    }
    // 4 and 6 by themselves
    for above in [301, 512, 513, WIDE, WIDE + 300, u64::MAX - 1, u64::MAX] {
        expect(Count(above), &mut good(), &mut good(), Err(Position));
        expect(Find(above), &mut good(), &mut good(), Err(NotFound));
    }
    expect(Find(300), &mut good(), &mut good(), Err(NotFound));
}

/// Every set of faults at once: the first in the order 1, 2 of the strip, 1, 2 of the waiting strip, 16, then the call's own
/// is the answer.
#[test]
fn first_refusal_wins() {
    for faults in 0..256 {
        let has = |n: u32| faults / 2u32.pow(n) % 2 == 1;
        for way in 0..HANDLE_FAULTS {
            let fault = |n: u32| has(n).then_some(way);
            let strip = Handle::new(1024, 700);
            let waiting = Handle::new(if has(4) { 1536 } else { 1024 }, if has(5) { 701 } else { 700 });
            let mut strip = Strip::faulty(strip, fault(0), fault(1), true);
            let mut waiting = Strip::faulty(waiting, fault(2), fault(3), has(6));
            let wanted = |own: Refusal, value: Bounded| {
                let list = [
                    (has(0), BadHandle),
                    (has(1), WordCount),
                    (has(2), BadHandle),
                    (has(3), WordCount),
                    (has(4) || has(5), Unequal),
                    (has(7), own),
                ];
                list.into_iter().find(|(has, _)| *has).map_or(value, |(_, refusal)| Err(refusal))
            };
            // all are ones; all wait, or none does
            let (i, k) = if has(7) { (702, 701) } else { (700, 699) };
            let (count, find) = if has(6) { (from_to(0, i), from(k)) } else { (from_to(i, i), from_to(k, k)) };
            expect(Count(i), &mut strip, &mut waiting, wanted(Position, count));
            expect(Find(k), &mut strip, &mut waiting, wanted(NotFound, find));
        }
    }
}

/// Where no words are lent for a strip, the pointer may be null.
#[test]
fn no_words() {
    let good = (Handle::new(512, 0), [0u64; 8]);
    let no_words = |capacity, length| (Handle::new(capacity, length), null(), 0);
    for call in WAITING {
        let some = (good.0, good.1.as_ptr(), good.1.len());
        for (strip, waiting, refusal) in [
            (no_words(512, 0), some, WordCount),
            (some, no_words(512, 0), WordCount),
            (no_words(512, 0), no_words(512, 0), WordCount),
            (no_words(0, 0), some, BadHandle),
            (some, no_words(0, 0), BadHandle),
            (no_words(0, 0), no_words(0, 0), BadHandle),
            (no_words(512, 0), no_words(0, 0), WordCount),
            (no_words(0, 0), no_words(512, 0), BadHandle),
        ] {
            // SAFETY: `some` has eight words, which live through the call; nothing else is lent.
            let told = unsafe { call.ask(strip, waiting) };
            assert_eq!(told, Err(refusal), "{call:?} under {:?} and {:?}", strip.0, waiting.0);
        }
    }
}

// ---- the numbers of `out`

/// With too few numbers lent nothing happens; with as many or more the answer is the same, and none past it is written.
#[test]
fn out_of_any_size() {
    let good = || Strip::from_text(A, true);
    let marks = || Strip::from_text(MARKS, true);
    for (mut strip, mut waiting) in [
        (good(), marks()),
        (good(), Strip::filled(512, 17, true)),
        (Strip::filled(512, 17, true), Strip::filled(512, 17, false)),
        (Strip::filled(512, 17, false), Strip::filled(512, 17, false)),
        (Strip::filled(512, 0, true), Strip::filled(512, 0, true)),
        (Strip::filled(512, 513, true), marks()),
        (Strip::of_words(512, 17, 7, true), marks()),
        (good(), Strip::filled(512, 513, true)),
        (good(), Strip::of_words(512, 17, 9, true)),
        (good(), Strip::filled(512, 16, true)),
        (good(), Strip::filled(1024, 17, true)),
        (Strip::of_words(0, 0, 0, true), Strip::of_words(0, 0, 0, true)),
    ] {
        for call in both_at([0, 1, 7, 8, 12, 13, 16, 17, 18, WIDE, u64::MAX]) {
            let wanted = compare(call, &mut strip, &mut waiting);
            for room in 0..=9 {
                let out = call.left((strip.handle, &mut strip.lent), (waiting.handle, &mut waiting.lent), room);
                let written = if room < call.numbers() { 0 } else { call.numbers() };
                assert!(out[written..].iter().all(|number| *number == UNTOUCHED), "{call:?}, {room} numbers: {out:?}");
                assert!(written == 0 || call.read(&out) == wanted, "{call:?}, {room} numbers: {out:?}");
            }
        }
    }
}

// ---- any strips

/// Strips and calls drawn at random: each call tells all that it can.
#[test]
fn any_strips() {
    let (mut cases, mut tally) = (Cases::new("waiting", "any_strips", 609), Tally::default());
    let (mut certain, mut uncertain) = (0, 0);
    for _ in 0..4000 {
        cases.run(|random| {
            let capacity = 512 * (1 + random.number_below(10));
            let length = if random.below(4) == 0 { capacity } else { random.number_below(capacity + 1) };
            let density = DENSITIES[random.below(DENSITIES.len())];
            let past = PAST[random.below(PAST.len())];
            let [strip, waiting] = drawn(random, capacity, length, density, past);
            let strokes = [&strip, &waiting].map(|strip| strip.strokes().to_vec());
            let (mut strip, mut waiting) = (strip.altered(random), waiting.altered(random));
            for number in 0..60 {
                at_call(number);
                let call = draw::waiting(random, WAITING[number % 2], capacity, (&strokes[0], &strokes[1]));
                let told = compare(call, &mut strip, &mut waiting);
                tally.note_waiting(call, told);
                if let (Find(_), Ok(Bounds { high, .. })) = (call, told) {
                    *if high.is_some() { &mut certain } else { &mut uncertain } += 1;
                }
            }
        });
    }
    if cases.all() {
        tally.expect_waiting("any strips");
        assert!(certain > 0 && uncertain > 0, "{certain} finds with a latest position, {uncertain} without");
    }
    tally.print(&format!("any strips with strokes waiting, seed {}", cases.seed()));
}
