//! The six calls that compare two strips, against the plain model and against answers worked out by hand.
use std::ptr::null;
use strip_tests::borders::{self, beside, lengths, FAR, LARGEST, ONE_LEVEL, TWO_LEVELS, WIDE};
use strip_tests::cases::{at_call, Cases};
use strip_tests::model::{self, word_count};
use strip_tests::pair::{counts, Comparison, COMPARISONS};
use strip_tests::random::Random;
use strip_tests::refusal::{Refusal, Signed};
use strip_tests::strip::{both_handles, both_totals, Strip, HANDLE_FAULTS};
use strip_tests::tally::Tally;
use strip_tests::{draw, Handle, Lent};
use Comparison::{Both, Differ, Either, Find, OnlyFirst, Span};
use Refusal::{BadHandle, NotFound, Position, Unequal, WordCount};

/// A span whose start is above its end.
const REVERSED: Refusal = Refusal::Span;

fn ask(comparison: Comparison, first: &mut Strip, second: &mut Strip) -> Signed {
    comparison.told((first.handle, &mut first.lent), (second.handle, &mut second.lent))
}

fn owed(comparison: Comparison, first: &Strip, second: &Strip) -> Signed {
    comparison.owed((first.handle, &first.bits), (second.handle, &second.bits))
}

/// Asks, and asserts that the answer is this.
fn expect(comparison: Comparison, first: &mut Strip, second: &mut Strip, wanted: Signed) {
    let told = ask(comparison, first, second);
    assert_eq!(told, wanted, "{comparison:?} {}", both_handles(first, second));
}

/// Asks, and compares with the model.
fn compare(comparison: Comparison, first: &mut Strip, second: &mut Strip) -> Signed {
    let wanted = owed(comparison, first, second);
    expect(comparison, first, second, wanted);
    wanted
}

/// Compares with the model, the strips given in either order.
fn compare_both_ways(comparison: Comparison, first: &mut Strip, second: &mut Strip) {
    let _ = compare(comparison, first, second);
    let _ = compare(comparison, second, first);
}

/// Every comparison around these numbers, as i, k, a and b.
fn around(numbers: &[u64]) -> Vec<Comparison> {
    let mut list = Vec::new();
    for &x in numbers {
        list.extend(counts(x));
        list.push(Find(x));
        list.extend(numbers.iter().map(|y| Span(x, *y)));
    }
    list
}

// ---- answers worked out by hand

const A: &str = "01101101010101110";
const B: &str = "00111001110001011";

#[test]
fn strips_a_and_b() {
    let (mut a, mut b) = (Strip::from_text(A, true), Strip::from_text(B, false));
    let both = [0, 0, 0, 1, 1, 2, 2, 2, 3, 3, 4, 4, 4, 4, 5, 5, 6, 6];
    let either = [0, 0, 1, 2, 3, 4, 5, 5, 6, 7, 8, 8, 9, 9, 10, 11, 12, 13];
    let only_a = [0, 0, 1, 1, 1, 1, 2, 2, 2, 2, 2, 2, 3, 3, 3, 4, 4, 4];
    let only_b = [0, 0, 0, 0, 1, 1, 1, 1, 1, 2, 2, 2, 2, 2, 2, 2, 2, 3];
    let differ = [0, 0, 1, 1, 2, 2, 3, 3, 3, 4, 4, 4, 5, 5, 5, 6, 6, 7];
    for i in 0..18 {
        let at = i as u64;
        expect(Both(at), &mut a, &mut b, Ok(both[i]));
        expect(Both(at), &mut b, &mut a, Ok(both[i]));
        expect(Either(at), &mut a, &mut b, Ok(either[i]));
        expect(Either(at), &mut b, &mut a, Ok(either[i]));
        expect(OnlyFirst(at), &mut a, &mut b, Ok(only_a[i]));
        expect(OnlyFirst(at), &mut b, &mut a, Ok(only_b[i]));
        expect(Differ(at), &mut a, &mut b, Ok(differ[i]));
        expect(Differ(at), &mut b, &mut a, Ok(differ[i]));
    }
    for (k, p) in (0..).zip([1, 3, 5, 8, 11, 14, 16]) {
        expect(Find(k), &mut a, &mut b, Ok(p));
        expect(Find(k), &mut b, &mut a, Ok(p));
    }
    for (from, to, difference) in [
        (0, 17, 1),
        (0, 0, 0),
        (17, 17, 0),
        (1, 2, 1),
        (3, 4, -1),
        (0, 4, 0),
        (1, 6, 1),
        (6, 11, -1),
        (9, 15, 2),
        (14, 17, 0),
        (16, 17, -1),
    ] {
        expect(Span(from, to), &mut a, &mut b, Ok(difference));
        expect(Span(from, to), &mut b, &mut a, Ok(-difference));
    }
    for comparison in counts(18) {
        expect(comparison, &mut a, &mut b, Err(Position));
    }
    expect(Find(7), &mut a, &mut b, Err(NotFound));
    expect(Span(0, 18), &mut a, &mut b, Err(Position));
    expect(Span(18, 18), &mut a, &mut b, Err(Position));
    expect(Span(17, 16), &mut a, &mut b, Err(REVERSED));
    expect(Span(19, 18), &mut a, &mut b, Err(REVERSED));
}

#[test]
fn empty_strips() {
    for (x, y) in [(false, false), (false, true), (true, false), (true, true)] {
        let (mut first, mut second) = (Strip::filled(512, 0, x), Strip::filled(512, 0, y));
        for comparison in counts(0).into_iter().chain([Span(0, 0)]) {
            expect(comparison, &mut first, &mut second, Ok(0));
        }
        for i in [1, 64, 512].into_iter().chain(FAR) {
            for comparison in counts(i).into_iter().chain([Span(0, i), Span(i, i)]) {
                expect(comparison, &mut first, &mut second, Err(Position));
            }
            expect(Span(i, 0), &mut first, &mut second, Err(REVERSED));
        }
        for k in [0, 1, 64, 512].into_iter().chain(FAR) {
            expect(Find(k), &mut first, &mut second, Err(NotFound));
        }
    }
}

/// One stroke judged differently, at each position: what every call answers around it.
#[test]
fn single_stroke() {
    let capacity = 1024;
    for p in 0..capacity {
        for marked in [false, true] {
            // the first strip marks p alone, or all but p; the second none, or all
            let mut bits = vec![!marked; capacity as usize];
            let mut second = Strip::new(capacity, bits.clone());
            bits[p as usize] = marked;
            let mut first = Strip::new(capacity, bits);
            let sign = if marked { 1 } else { -1 };
            for i in [0, p / 64 * 64, p] {
                expect(Differ(i), &mut first, &mut second, Ok(0));
                expect(OnlyFirst(i), &mut first, &mut second, Ok(0));
                expect(OnlyFirst(i), &mut second, &mut first, Ok(0));
                expect(Span(i, p), &mut first, &mut second, Ok(0));
                expect(Span(i, p + 1), &mut first, &mut second, Ok(sign));
                expect(Span(i, p + 1), &mut second, &mut first, Ok(-sign));
            }
            for i in [p + 1, capacity] {
                let all = if marked { 0 } else { i as i64 };
                expect(Both(i), &mut first, &mut second, Ok((all - 1).max(0)));
                expect(Either(i), &mut first, &mut second, Ok(all.max(1)));
                expect(Differ(i), &mut first, &mut second, Ok(1));
                expect(OnlyFirst(i), &mut first, &mut second, Ok(i64::from(marked)));
                expect(OnlyFirst(i), &mut second, &mut first, Ok(i64::from(!marked)));
                expect(Span(p, i), &mut first, &mut second, Ok(sign));
                expect(Span(p + 1, i), &mut first, &mut second, Ok(0));
            }
            expect(Find(0), &mut first, &mut second, Ok(p as i64));
            expect(Find(0), &mut second, &mut first, Ok(p as i64));
            expect(Find(1), &mut first, &mut second, Err(NotFound));
            // past the length it is not there
            (first.handle.length, second.handle.length) = (p, p);
            expect(Find(0), &mut first, &mut second, Err(NotFound));
            expect(Differ(p), &mut first, &mut second, Ok(0));
            expect(Span(0, p), &mut first, &mut second, Ok(0));
            expect(Differ(p + 1), &mut first, &mut second, Err(Position));
            expect(Span(p, p + 1), &mut first, &mut second, Err(Position));
        }
    }
}

/// A full strip against an empty one, past the length the other way round: +n and -n.
#[test]
fn extremes() {
    for (capacity, length) in [
        (512, 1),
        (512, 63),
        (512, 64),
        (512, 65),
        (512, 511),
        (512, 512),
        (1024, 513),
        (TWO_LEVELS, TWO_LEVELS - 1),
        (LARGEST, LARGEST - 1),
        (LARGEST, LARGEST),
    ] {
        let (h, n) = (Handle::new(capacity, length), length as i64);
        let mut words = vec![u64::MAX; word_count(capacity)];
        for (place, word) in (0..).zip(&mut words) {
            let ones = length.saturating_sub(64 * place).min(64);
            *word = if ones == 64 { u64::MAX } else { (1 << ones) - 1 };
        }
        let opposite: Vec<u64> = words.iter().map(|word| !word).collect();
        let (mut full, mut none) = (Lent::new(&words), Lent::new(&opposite));
        let mut expect = |comparison: Comparison, from_full: Signed, from_none: Signed| {
            let told = comparison.told((h, &mut full), (h, &mut none));
            assert_eq!(told, from_full, "{comparison:?} under {h:?}, the full strip first");
            let told = comparison.told((h, &mut none), (h, &mut full));
            assert_eq!(told, from_none, "{comparison:?} under {h:?}, the full strip second");
        };
        expect(Span(0, length), Ok(n), Ok(-n));
        expect(Span(0, length - 1), Ok(n - 1), Ok(1 - n));
        expect(Span(length - 1, length), Ok(1), Ok(-1));
        expect(Span(length, length), Ok(0), Ok(0));
        expect(Span(0, length + 1), Err(Position), Err(Position));
        expect(Both(length), Ok(0), Ok(0));
        expect(Either(length), Ok(n), Ok(n));
        expect(OnlyFirst(length), Ok(n), Ok(0));
        expect(Differ(length), Ok(n), Ok(n));
        expect(Find(length - 1), Ok(n - 1), Ok(n - 1));
        expect(Find(length), Err(NotFound), Err(NotFound));
    }
}

// ---- strips of every length and density, against the model

/// How the second strip is drawn beside the first.
#[derive(Clone, Copy)]
enum Beside {
    /// so many ones in 1,000, whatever the first has
    Ones(usize),
    /// so many strokes in 1,000 judged differently
    Differing(usize),
}

impl Beside {
    fn draw(self, random: &mut Random, first: &[bool]) -> Vec<bool> {
        match self {
            Beside::Ones(share) => random.bits(model::length(first), share),
            Beside::Differing(share) => first.iter().map(|bit| *bit != (random.below(1000) < share)).collect(),
        }
    }
}

/// None, few, half and all ones in either; none, few and all judged differently.
const DENSITIES: [(usize, Beside); 19] = [
    (0, Beside::Ones(0)),
    (0, Beside::Ones(20)),
    (0, Beside::Ones(500)),
    (0, Beside::Ones(1000)),
    (20, Beside::Ones(0)),
    (20, Beside::Ones(20)),
    (20, Beside::Ones(500)),
    (20, Beside::Ones(1000)),
    (500, Beside::Ones(0)),
    (500, Beside::Ones(20)),
    (500, Beside::Ones(500)),
    (500, Beside::Ones(1000)),
    (1000, Beside::Ones(0)),
    (1000, Beside::Ones(20)),
    (1000, Beside::Ones(500)),
    (1000, Beside::Ones(1000)),
    (500, Beside::Differing(0)),
    (500, Beside::Differing(5)),
    (500, Beside::Differing(1000)),
];

/// Ones in 1,000 past the length, of the first strip and of the second.
const PAST: [(usize, usize); 6] = [(0, 0), (500, 0), (0, 500), (500, 500), (1000, 0), (1000, 1000)];

/// Two strips of a length under a capacity.
fn drawn(
    random: &mut Random,
    capacity: u64,
    length: u64,
    density: (usize, Beside),
    past: (usize, usize),
) -> [Strip; 2] {
    let mut first = random.bits(length, density.0);
    let mut second = density.1.draw(random, &first);
    first.extend(random.bits(capacity - length, past.0));
    second.extend(random.bits(capacity - length, past.1));
    [first, second].map(|bits| Strip::new(length, bits))
}

/// Comparisons on two strips: counts around 0, the ends of words and blocks, the length and the capacity; the first, last
/// and first absent k; spans inside a word, over two, over many, on and off their ends; arguments far past; some at random.
fn comparisons(random: &mut Random, first: &Strip, second: &Strip, at_random: usize) -> Vec<Comparison> {
    let Handle { capacity, length, .. } = first.handle;
    let mut list = Vec::new();
    for i in FAR.into_iter().chain([0, 64, 512, length / 64 * 64, length, capacity].into_iter().flat_map(beside)) {
        list.extend(counts(i));
    }
    let number = model::differ(first.strokes(), second.strokes(), length).unwrap();
    list.extend(FAR.map(Find));
    list.extend([0, number, length, WIDE, WIDE + number].into_iter().flat_map(beside).map(Find));
    let last = length.saturating_sub(1) / 64 * 64;
    for (a, b) in [
        (0, length),
        (1, length),
        (0, 1),
        (0, 64),
        (0, 65),
        (3, 61),
        (1, 64),
        (63, 64),
        (63, 65),
        (64, 64),
        (64, 65),
        (64, 128),
        (5, 127),
        (60, 200),
        (64, 512),
        (511, 513),
        (last, length),
        (last + 1, length),
        (last.saturating_sub(1), length),
        (last.saturating_sub(64), last),
        (length.saturating_sub(1), length),
        (length, length),
        (0, length + 1),
        (length + 1, length + 1),
        (length + 1, length),
        (length + 2, length + 1),
        (1, 0),
        (65, 64),
        (length, 0),
        (0, capacity),
        (0, capacity + 1),
        (capacity, capacity),
        (WIDE, length),
        (0, WIDE + length),
        (WIDE, WIDE + length),
    ] {
        list.push(Span(a, b));
    }
    list.extend(FAR.into_iter().flat_map(|far| [Span(0, far), Span(far, far), Span(far, 0), Span(far, far - 1)]));
    for _ in 0..at_random {
        let [mut a, mut b] = [0; 2].map(|_| random.number_below(length + 1));
        if a > b {
            (a, b) = (b, a);
        }
        list.extend(counts(random.number_below(length + 2)));
        list.extend([Find(random.number_below(number + 1)), Span(a, b), Span(a, (a + 70).min(length))]);
    }
    list
}

/// Every length and density, with zeros, ones or anything past the length of either.
#[test]
fn strips() {
    let mut cases = Cases::new("pairs", "strips", 401);
    for (capacity, at_random) in [(512, 20), (1024, 20), (4096, 10), (ONE_LEVEL, 3), (TWO_LEVELS, 3)] {
        let drawn_lengths = [None; 6];
        for given in lengths(capacity).into_iter().map(Some).chain(drawn_lengths) {
            for density in DENSITIES {
                let pasts = if capacity > 4096 { &PAST[3..4] } else { &PAST };
                for &past in pasts {
                    cases.run(|random| {
                        let length = given.unwrap_or_else(|| random.number_below(capacity));
                        let [mut first, mut second] = drawn(random, capacity, length, density, past);
                        for comparison in comparisons(random, &first, &second, at_random) {
                            compare_both_ways(comparison, &mut first, &mut second);
                        }
                    });
                }
            }
        }
    }
}

/// Totals good and bad of either strip: up to the length the answers are the same under each, above it all is refused.
#[test]
fn any_total() {
    let mut cases = Cases::new("pairs", "any_total", 414);
    for given in lengths(1024).into_iter().map(Some).chain([None; 4]) {
        for density in [(0, Beside::Ones(0)), (20, Beside::Ones(500)), (1000, Beside::Ones(1000))] {
            cases.run(|random| {
                let length = given.unwrap_or_else(|| random.number_below(1024));
                let [mut first, mut second] = drawn(random, 1024, length, density, (500, 500));
                for (total, other) in both_totals(&first, &second) {
                    (first.handle.total, second.handle.total) = (total, other);
                    let i = random.number_below(length + 1);
                    for comparison in counts(i).into_iter().chain([Find(i), Find(0), Span(0, i), Span(0, length + 1)]) {
                        compare_both_ways(comparison, &mut first, &mut second);
                    }
                }
            });
        }
    }
}

/// Every i and every k of small strips; every span, or from each position those of up to three and that to the end.
#[test]
fn every_position() {
    let mut cases = Cases::new("pairs", "every_position", 402);
    for (capacity, length) in [(512, 0), (512, 1), (512, 63), (512, 130), (512, 192), (512, 512), (1024, 513)] {
        for density in [(20, Beside::Ones(20)), (500, Beside::Ones(500)), (500, Beside::Differing(20))] {
            cases.run(|random| {
                let [mut first, mut second] = drawn(random, capacity, length, density, (500, 500));
                for x in 0..=capacity + 1 {
                    for comparison in counts(x).into_iter().chain([Find(x)]) {
                        compare_both_ways(comparison, &mut first, &mut second);
                    }
                }
                for a in 0..=length + 1 {
                    let ends = if length > 200 { a..a + 4 } else { 0..length + 2 };
                    for b in ends.chain([length]) {
                        compare_both_ways(Span(a, b), &mut first, &mut second);
                    }
                }
            });
        }
    }
}

/// Every k on strips whose k are large enough for a search to pass words that cannot hold the stroke.
#[test]
fn every_find() {
    let mut cases = Cases::new("pairs", "every_find", 413);
    for density in [20, 500, 980, 1000].map(|differing| (500, Beside::Differing(differing))) {
        cases.run(|random| {
            let [mut first, mut second] = drawn(random, 4096, 4095, density, (500, 500));
            for k in 0..=4097 {
                compare_both_ways(Find(k), &mut first, &mut second);
            }
        });
    }
}

/// The longest strips, half of them ones at random; then the same words under a length that ends inside a word.
#[test]
fn largest_strips() {
    let mut cases = Cases::new("pairs", "largest_strips", 403);
    cases.run(|random| {
        let [mut first, mut second] = [0; 2].map(|_| {
            let words: Vec<u64> = (0..word_count(LARGEST)).map(|_| random.number()).collect();
            Strip::from_words(LARGEST, 0, &words)
        });
        for length in [LARGEST, LARGEST - 77] {
            (first.handle.length, second.handle.length) = (length, length);
            let some = random.number_below(length);
            let [both, either, _, differing] = counts(length).map(|c| compare(c, &mut first, &mut second).unwrap());
            assert_eq!(either, both + differing);
            let number = differing as u64;
            compare(Find(number - 1), &mut first, &mut second).unwrap();
            expect(Find(number), &mut first, &mut second, Err(NotFound));
            compare(OnlyFirst(some), &mut second, &mut first).unwrap();
            for (a, b) in [(0, length), (some / 2, some), (length - 1, length)] {
                let difference = compare(Span(a, b), &mut first, &mut second).unwrap();
                expect(Span(a, b), &mut second, &mut first, Ok(-difference));
            }
            for comparison in counts(length + 1).into_iter().chain([Span(0, length + 1)]) {
                expect(comparison, &mut first, &mut second, Err(Position));
            }
        }
        second.handle.length = LARGEST;
        for comparison in COMPARISONS {
            expect(comparison, &mut first, &mut second, Err(Unequal));
            expect(comparison, &mut second, &mut first, Err(Unequal));
        }
    });
}

/// The same words lent for both strips.
#[test]
fn one_buffer() {
    let mut cases = Cases::new("pairs", "one_buffer", 404);
    for length in lengths(1024) {
        cases.run(|random| {
            let bits = random.bits(1024, 500);
            let mut lent = Lent::new(&model::words_of(&bits));
            let h = Handle::new(1024, length);
            for i in [0, 1, length / 2, length].into_iter().filter(|i| *i <= length) {
                let ones = Ok(model::rank(&bits, 1, i).unwrap() as i64);
                assert_eq!(counts(i).map(|c| c.told_of_one(h, h, &mut lent)), [ones, ones, Ok(0), Ok(0)]);
                assert_eq!(Span(i, length).told_of_one(h, h, &mut lent), Ok(0));
            }
            for k in [0, 1, length] {
                assert_eq!(Find(k).told_of_one(h, h, &mut lent), Err(NotFound));
            }
            // as a strip of its own each is judged by its own length
            let other = Handle { length: if length == 0 { 1 } else { length - 1 }, ..h };
            let above = Handle { length: 1025, ..h };
            for comparison in around(&[0, 1, length, 1025]) {
                assert_eq!(comparison.told_of_one(h, other, &mut lent), Err(Unequal));
                assert_eq!(comparison.told_of_one(other, h, &mut lent), Err(Unequal));
                assert_eq!(comparison.told_of_one(h, above, &mut lent), Err(BadHandle));
                assert_eq!(comparison.told_of_one(above, h, &mut lent), Err(BadHandle));
            }
        });
    }
}

// ---- refusals

/// Asserts that all six calls refuse alike, whatever their arguments.
fn all_refuse(first: &mut Strip, second: &mut Strip, refusal: Refusal) {
    let (n, m) = (first.handle.length, second.handle.length);
    for comparison in around(&[0, 1, 64, n, m, n.max(m).wrapping_add(1), WIDE, u64::MAX]) {
        expect(comparison, first, second, Err(refusal));
    }
}

/// Asserts that all six calls refuse alike, the strips given in either order.
fn both_ways_refuse(first: &mut Strip, second: &mut Strip, refusal: Refusal) {
    all_refuse(first, second, refusal);
    all_refuse(second, first, refusal);
}

/// A bad handle beside a good strip, and beside itself.
#[test]
fn bad_handles() {
    for h in borders::bad_handles() {
        for count in [0, 7, 8, 16] {
            let [mut bad, mut same] = [true, false].map(|bit| Strip::under(h, vec![bit; 64 * count]));
            both_ways_refuse(&mut bad, &mut same, BadHandle);
            for good in [(512, 0), (512, 512), (1024, h.length.min(1024))] {
                both_ways_refuse(&mut bad, &mut Strip::filled(good.0, good.1, true), BadHandle);
            }
        }
    }
}

/// A wrong number of words beside a good strip, and beside itself.
#[test]
fn wrong_word_counts() {
    for capacity in [512, 1024, TWO_LEVELS] {
        let words = word_count(capacity);
        for count in [0, 1, words - 1, words + 1, 2 * words, 64 * words] {
            for length in [0, 1, capacity] {
                let mut wrong = Strip::of_words(capacity, length, count, true);
                let mut same = Strip::of_words(capacity, length, count, false);
                both_ways_refuse(&mut wrong, &mut same, WordCount);
                both_ways_refuse(&mut wrong, &mut Strip::filled(capacity, length, true), WordCount);
                both_ways_refuse(&mut wrong, &mut Strip::filled(1536, length.min(1536), true), WordCount);
            }
        }
    }
    let mut wrong = Strip::of_words(LARGEST, 100, 8, true);
    both_ways_refuse(&mut wrong, &mut Strip::filled(512, 100, true), WordCount);
}

/// Each strip is judged on its own handle and its own words.
#[test]
fn each_on_its_own() {
    // each has the words of the other's capacity; the words of both are as many; all words are there, but not in place
    for (nx, ny) in [(16, 8), (8, 8), (16, 16), (24, 0), (0, 24)] {
        let (mut first, mut second) = (Strip::of_words(512, 9, nx, true), Strip::of_words(1024, 9, ny, true));
        both_ways_refuse(&mut first, &mut second, WordCount);
    }
    for (nx, ny) in [(7, 9), (9, 7), (16, 0), (0, 16)] {
        let (mut first, mut second) = (Strip::of_words(512, 9, nx, true), Strip::of_words(512, 9, ny, true));
        both_ways_refuse(&mut first, &mut second, WordCount);
    }
    // a length that only the other's capacity allows
    both_ways_refuse(&mut Strip::filled(512, 600, true), &mut Strip::filled(1024, 600, true), BadHandle);
    // a capacity that would be allowed if it were cut to 32 bits; so too a length
    both_ways_refuse(&mut Strip::filled(512, 9, true), &mut Strip::of_words(WIDE + 512, 9, 8, true), BadHandle);
    both_ways_refuse(&mut Strip::filled(512, 9, true), &mut Strip::filled(512, WIDE + 9, true), BadHandle);
}

/// Two good strips of unequal capacity, or length, or both: 16, whatever is asked.
#[test]
fn unequal() {
    for (first, second) in [
        ((512, 300), (1024, 300)),
        ((512, 0), (1024, 0)),
        ((512, 512), (1024, 512)),
        ((1024, 513), (1536, 513)),
        ((512, 300), (512, 301)),
        ((512, 0), (512, 1)),
        ((512, 0), (512, 512)),
        ((512, 511), (512, 512)),
        ((512, 64), (512, 128)),
        ((1024, 255), (1024, 511)),
        ((512, 300), (1024, 301)),
        ((512, 512), (1024, 1024)),
        ((512, 0), (TWO_LEVELS, TWO_LEVELS)),
        ((ONE_LEVEL, 7), (TWO_LEVELS, 7)),
    ] {
        for (x, y) in [(false, false), (true, false), (false, true), (true, true)] {
            let (mut first, mut second) = (Strip::filled(first.0, first.1, x), Strip::filled(second.0, second.1, y));
            both_ways_refuse(&mut first, &mut second, Unequal);
        }
    }
}

/// Pairs of faults, each by itself: which of the two is told.
#[test]
fn pairs_of_refusals() {
    let good = || Strip::filled(512, 300, true);
    let handle = || Strip::filled(512, 513, true);
    let words = || Strip::of_words(512, 300, 7, true);
    let neither = || Strip::of_words(512, 513, 7, true);
    let short = || Strip::filled(512, 299, true);
    let wide = || Strip::filled(1024, 300, true);
    // 1 before 2 of either strip
    both_ways_refuse(&mut neither(), &mut good(), BadHandle);
    // the first strip's before the second's
    all_refuse(&mut words(), &mut handle(), WordCount);
    all_refuse(&mut handle(), &mut words(), BadHandle);
    all_refuse(&mut words(), &mut neither(), WordCount);
    all_refuse(&mut neither(), &mut words(), BadHandle);
    // the second's before 16
    all_refuse(&mut good(), &mut Strip::of_words(1024, 300, 15, true), WordCount);
    all_refuse(&mut good(), &mut Strip::of_words(512, 299, 9, true), WordCount);
    all_refuse(&mut good(), &mut Strip::filled(1024, 1025, true), BadHandle);
    all_refuse(&mut good(), &mut Strip::of_words(1000, 300, 15, true), BadHandle);
    // the first's before 16
    all_refuse(&mut Strip::of_words(1024, 300, 15, true), &mut good(), WordCount);
    all_refuse(&mut Strip::filled(1024, 1025, true), &mut good(), BadHandle);
    // 16 before the rest
    for mut other in [short(), wide()] {
        for comparison in counts(301).into_iter().chain(counts(u64::MAX)) {
            expect(comparison, &mut good(), &mut other, Err(Unequal));
        }
        for comparison in [Find(0), Find(300), Find(u64::MAX), Span(2, 1), Span(302, 301), Span(0, 301)] {
            expect(comparison, &mut good(), &mut other, Err(Unequal));
        }
    }
    // 5 before 4
    for (a, b) in [(302, 301), (u64::MAX, u64::MAX - 1), (u64::MAX, 301), (WIDE + 1, WIDE)] {
        expect(Span(a, b), &mut good(), &mut good(), Err(REVERSED));
    }
    for (a, b) in [(301, 301), (300, 301), (0, 301), (u64::MAX, u64::MAX), (0, WIDE), (WIDE, WIDE)] {
        expect(Span(a, b), &mut good(), &mut good(), Err(Position));
    }
}

/// Every set of faults at once: the first in the order 1, 2 of the first strip, 1, 2 of the second, 16, then the call's own
/// is the answer.
#[test]
fn first_refusal_wins() {
    for faults in 0..256 {
        let has = |n: u32| faults / 2u32.pow(n) % 2 == 1;
        for way in 0..HANDLE_FAULTS {
            let fault = |n: u32| has(n).then_some(way);
            let first = Handle::new(1024, 700);
            let second = Handle::new(if has(4) { 1536 } else { 1024 }, if has(5) { 701 } else { 700 });
            let mut first = Strip::faulty(first, fault(0), fault(1), true);
            let mut second = Strip::faulty(second, fault(2), fault(3), has(6));
            let of_strips = [
                (has(0), BadHandle),
                (has(1), WordCount),
                (has(2), BadHandle),
                (has(3), WordCount),
                (has(4) || has(5), Unequal),
            ];
            let wanted = |own: &[(bool, Refusal)], value: i64| {
                let found = of_strips.iter().chain(own).find(|(has, _)| *has).map(|(_, refusal)| *refusal);
                found.map_or(Ok(value), Err)
            };
            // all are marked by the first; by the second too, or by the first alone
            let marked = if has(6) { [700, 700, 0, 0] } else { [0, 700, 700, 700] };
            let i = if has(7) { 702 } else { 700 };
            for (comparison, value) in counts(i).into_iter().zip(marked) {
                expect(comparison, &mut first, &mut second, wanted(&[(has(7), Position)], value));
            }
            expect(Find(699), &mut first, &mut second, wanted(&[(has(6), NotFound)], 699));
            for (a, reversed) in [(0, false), (i + 1, true)] {
                let own = [(reversed, REVERSED), (has(7), Position)];
                expect(Span(a, i), &mut first, &mut second, wanted(&own, if has(6) { 0 } else { 700 }));
            }
        }
    }
}

/// Where no words are lent for a strip, the pointer may be null.
#[test]
fn no_words() {
    let good = (Handle::new(512, 0), [0u64; 8]);
    let no_words = |capacity, length| (Handle::new(capacity, length), null(), 0);
    for comparison in COMPARISONS {
        let some = (good.0, good.1.as_ptr(), good.1.len());
        for (first, second, refusal) in [
            (no_words(512, 0), some, WordCount),
            (some, no_words(512, 0), WordCount),
            (no_words(512, 0), no_words(512, 0), WordCount),
            (no_words(0, 0), some, BadHandle),
            (some, no_words(0, 0), BadHandle),
            (no_words(0, 0), no_words(0, 0), BadHandle),
            (no_words(512, 0), no_words(0, 0), WordCount),
            (no_words(0, 0), no_words(512, 0), BadHandle),
        ] {
            // SAFETY: `some` has eight words, which live through the call; nothing else is lent.
            let told = unsafe { comparison.ask(first, second) };
            assert_eq!(told, Err(refusal), "{comparison:?} under {:?} and {:?}", first.0, second.0);
        }
    }
}

// ---- any strips

/// Strips and comparisons drawn at random: each comparison tells all that it can.
#[test]
fn any_strips() {
    let (mut cases, mut tally) = (Cases::new("pairs", "any_strips", 405), Tally::default());
    for _ in 0..4000 {
        cases.run(|random| {
            let capacity = 512 * (1 + random.number_below(10));
            let length = if random.below(4) == 0 { capacity } else { random.number_below(capacity + 1) };
            let density = DENSITIES[random.below(DENSITIES.len())];
            let past = PAST[random.below(PAST.len())];
            let [first, second] = drawn(random, capacity, length, density, past);
            let strokes = [&first, &second].map(|strip| strip.strokes().to_vec());
            let (mut first, mut second) = (first.altered(random), second.altered(random));
            for call in 0..60 {
                at_call(call);
                let kind = COMPARISONS[call % COMPARISONS.len()];
                let comparison = draw::comparison(random, kind, capacity, (&strokes[0], &strokes[1]));
                tally.note_comparison(comparison, compare(comparison, &mut first, &mut second));
            }
        });
    }
    if cases.all() {
        tally.expect_comparisons("any strips");
    }
    tally.print(&format!("any strips, seed {}", cases.seed()));
}
