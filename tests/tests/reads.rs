//! Which words freeze, the search for a burst and the calls on two strips read, a strip's waiting strip being the second of
//! two: of each strip those that hold what is asked for, and no other. Find's 6 on one strip reads no word and no counter. What
//! is not to be read is lent in closed pages. A call that reads one of them, or writes any, is not told as a failed test: a
//! signal ends the process of this file, and `--test-threads=1` shows in which test.
use std::fmt::Debug;
use std::ops::Range;
use strip_tests::borders::{beside, FAR, WIDE, WIDEST};
use strip_tests::burst::Burst;
use strip_tests::cases::Cases;
use strip_tests::ffi::strip_select;
use strip_tests::image::freeze_from;
use strip_tests::layout;
use strip_tests::model::{self, word_count};
use strip_tests::pages::{Pages, PAGE};
use strip_tests::pair::{counts, Comparison};
use strip_tests::random::Random;
use strip_tests::record::counters_needed;
use strip_tests::refusal::{answer, Answer, Bounded, Bounds, Refusal, Signed};
use strip_tests::waiting::{Pointers, Waiting};
use strip_tests::Handle;
use Comparison::{Find, Span};
use Refusal::{BadHandle, BadLabel, BadWindow, LabelPresent, NoRoom, NotFound, Position, Unequal, Unsound, WordCount};

/// The words of a strip: four pages of them.
const WORDS: usize = 4 * PAGE;
const CAPACITY: u64 = 64 * WORDS as u64;

/// Within the last word but one.
const LENGTH: u64 = CAPACITY - 77;

struct Strip {
    handle: Handle,
    words: Vec<u64>,
}

fn strip(capacity: u64, length: u64, words: Vec<u64>) -> Strip {
    Strip { handle: Handle::new(capacity, length), words }
}

/// The same with a total above its length.
fn above(strip: Strip) -> Strip {
    Strip { handle: strip.handle.with(strip.handle.length + 1), ..strip }
}

/// Two strips, half of them ones at random.
fn any_strips(random: &mut Random) -> [Strip; 2] {
    [0; 2].map(|_| strip(CAPACITY, LENGTH, (0..WORDS).map(|_| random.number()).collect()))
}

/// Asks where of either strip these words alone can be read, and asserts the answer: first with a closed page right before
/// them, then with one right after them.
fn expect_of<T: Debug + PartialEq>(
    what: impl Debug,
    [first, second]: [&Strip; 2],
    open: Range<usize>,
    wanted: T,
    ask: impl Fn(Pointers, Pointers) -> T,
) {
    for border in [open.start, open.end] {
        let pages = [first, second].map(|strip| Pages::new(&strip.words, open.clone(), border));
        let [(xs, nx), (ys, ny)] = [pages[0].lend(), pages[1].lend()];
        let told = ask((first.handle, xs, nx), (second.handle, ys, ny));
        assert_eq!(told, wanted, "{what:?} under {:?} and {:?}, words {open:?}", first.handle, second.handle);
    }
}

fn expect(comparison: Comparison, strips: [&Strip; 2], open: Range<usize>, wanted: Signed) {
    // SAFETY: the pointers are to so many words, which live through the call; what it reads of them is under test.
    expect_of(comparison, strips, open, wanted, |first, second| unsafe { comparison.ask(first, second) });
}

/// The same of a strip and its waiting strip.
fn expect_waiting(call: Waiting, strips: [&Strip; 2], open: Range<usize>, wanted: Bounded) {
    // SAFETY: as in `expect`.
    expect_of(call, strips, open, wanted, |strip, waiting| unsafe { call.ask(strip, waiting) });
}

/// Around the ends of the first words, of words at the borders of pages, and of the last word below the length.
fn positions() -> Vec<u64> {
    let ends = (0..=12).chain([511, 512, 513, 700, 1023, 1024, 2046]).flat_map(|word| beside(64 * word));
    ends.filter(|p| *p < LENGTH).collect()
}

/// The number of words that hold the positions below i.
fn words_below(i: u64) -> usize {
    i.div_ceil(64) as usize
}

/// A count reads up to the word of position i - 1, so on a word's border nothing past it.
#[test]
fn counts_read() {
    Cases::new("reads", "counts_read", 501).run(|random| {
        let [first, second] = any_strips(random);
        let [xs, ys] = [&first, &second].map(|strip| model::bits_of(&strip.words));
        for i in positions().into_iter().chain([LENGTH]) {
            for count in counts(i) {
                let wanted = count.owed((first.handle, &xs), (second.handle, &ys));
                assert!(wanted.is_ok());
                expect(count, [&first, &second], 0..words_below(i), wanted);
            }
        }
    });
}

/// A find reads up to the word that holds the answer.
#[test]
fn find_reads() {
    Cases::new("reads", "find_reads", 502).run(|random| {
        let [first, mut second] = any_strips(random);
        second.words.clone_from(&first.words);
        for p in positions() {
            second.words[p as usize / 64] ^= 1 << (p % 64);
        }
        for (k, p) in (0..).zip(positions()) {
            expect(Find(k), [&first, &second], 0..words_below(p + 1), Ok(p as i64));
        }
    });
}

/// So does one whose k is so large that it passes words which cannot hold the answer: half of the strokes are judged
/// differently.
#[test]
fn find_past_words_reads() {
    Cases::new("reads", "find_past_words_reads", 508).run(|random| {
        let [first, second] = any_strips(random);
        let [xs, ys] = [&first, &second].map(|strip| model::bits_of(&strip.words));
        let differing: Vec<u64> = (0..LENGTH).filter(|p| xs[*p as usize] != ys[*p as usize]).collect();
        for p in positions() {
            for k in beside(differing.partition_point(|q| *q < p) as u64) {
                if let Some(&answer) = differing.get(k as usize) {
                    expect(Find(k), [&first, &second], 0..words_below(answer + 1), Ok(answer as i64));
                }
            }
        }
    });
}

/// A find of what is not there reads up to the last word that the length reaches; with k not below the length, nothing.
#[test]
fn find_of_none_reads() {
    Cases::new("reads", "find_of_none_reads", 503).run(|random| {
        let [mut first, mut second] = any_strips(random);
        for length in positions().into_iter().chain([LENGTH]) {
            (first.handle.length, second.handle.length) = (length, length);
            // equal below the length, opposite past it
            for (place, (x, y)) in (0..).zip(first.words.iter().zip(&mut second.words)) {
                let below = length.saturating_sub(64 * place).min(64);
                *y = if below == 64 { *x } else { *x ^ (u64::MAX << below) };
            }
            for k in [0, 1, length / 2, length.saturating_sub(1)].into_iter().filter(|k| *k < length) {
                expect(Find(k), [&first, &second], 0..words_below(length), Err(NotFound));
            }
            for k in [length, length + 1, CAPACITY].into_iter().chain(FAR) {
                expect(Find(k), [&first, &second], 0..0, Err(NotFound));
            }
        }
    });
}

/// A span reads from the word of a to that of b - 1; an empty one nothing.
#[test]
fn span_reads() {
    Cases::new("reads", "span_reads", 504).run(|random| {
        let [first, second] = any_strips(random);
        let [xs, ys] = [&first, &second].map(|strip| model::bits_of(&strip.words));
        let positions = positions();
        for (place, &a) in positions.iter().enumerate() {
            expect(Span(a, a), [&first, &second], 0..0, Ok(0));
            for &b in positions[place + 1..].iter().chain([&LENGTH]) {
                let wanted = Span(a, b).owed((first.handle, &xs), (second.handle, &ys));
                assert!(wanted.is_ok());
                expect(Span(a, b), [&first, &second], a as usize / 64..words_below(b), wanted);
            }
        }
        expect(Span(LENGTH, LENGTH), [&first, &second], 0..0, Ok(0));
    });
}

/// A waiting count reads up to the word of position i - 1.
#[test]
fn waiting_count_reads() {
    Cases::new("reads", "waiting_count_reads", 505).run(|random| {
        let [strip, waiting] = any_strips(random);
        let [xs, ys] = [&strip, &waiting].map(|strip| model::bits_of(&strip.words));
        for i in positions().into_iter().chain([LENGTH]) {
            let wanted = Waiting::Count(i).owed((strip.handle, &xs), (waiting.handle, &ys));
            assert!(wanted.is_ok());
            expect_waiting(Waiting::Count(i), [&strip, &waiting], 0..words_below(i), wanted);
        }
    });
}

/// A waiting find reads up to the word of the latest position, however early the earliest is; where some outcome has no k-th
/// misfire, up to the last word that the length reaches.
#[test]
fn waiting_find_reads() {
    let (mut cases, places) = (Cases::new("reads", "waiting_find_reads", 506), positions());
    // what stands at the positions, all others being zeros: misfires, strokes that wait, or any of both
    for way in 0..4 {
        cases.run(|random| {
            let [mut strip, mut waiting] = [0; 2].map(|_| strip(CAPACITY, LENGTH, vec![0; WORDS]));
            let (mut sure, mut possible) = (Vec::new(), Vec::new());
            for &p in &places {
                let mark = [false, true, random.below(2) == 0, random.below(8) == 0][way];
                let bit = !mark || random.below(2) == 0;
                strip.words[p as usize / 64] |= u64::from(bit) << (p % 64);
                waiting.words[p as usize / 64] |= u64::from(mark) << (p % 64);
                possible.push(p);
                sure.extend((!mark).then_some(p));
            }
            for (k, &low) in possible.iter().enumerate() {
                let high = sure.get(k).copied();
                let end = words_below(high.map_or(LENGTH, |latest| latest + 1));
                expect_waiting(Waiting::Find(k as u64), [&strip, &waiting], 0..end, Ok(Bounds { low, high }));
            }
        });
    }
}

/// The same where k is so large that words which cannot hold the earliest or the latest are passed: half of the strokes wait.
#[test]
fn waiting_find_past_words_reads() {
    Cases::new("reads", "waiting_find_past_words_reads", 509).run(|random| {
        let [strip, waiting] = any_strips(random);
        let [xs, ys] = [&strip, &waiting].map(|strip| model::bits_of(&strip.words));
        let sure: Vec<u64> = (0..LENGTH).filter(|p| xs[*p as usize] && !ys[*p as usize]).collect();
        let border = sure.len() as u64;
        let near = positions().into_iter().map(|p| sure.partition_point(|q| *q < p) as u64);
        for k in near.chain([border, 2 * border]).flat_map(beside).filter(|k| *k < LENGTH / 2) {
            let wanted = Waiting::Find(k).owed((strip.handle, &xs), (waiting.handle, &ys));
            let latest = wanted.unwrap().high;
            assert_eq!(latest.is_some(), k < border);
            let end = words_below(latest.map_or(LENGTH, |latest| latest + 1));
            expect_waiting(Waiting::Find(k), [&strip, &waiting], 0..end, wanted);
        }
    });
}

/// A waiting find of what no outcome has reads up to the last word that the length reaches; with k not below the length,
/// nothing. With every stroke waiting it reads as far, since some outcome has none.
#[test]
fn waiting_find_of_none_reads() {
    Cases::new("reads", "waiting_find_of_none_reads", 507).run(|random| {
        for length in positions().into_iter().chain([LENGTH]) {
            let [mut strip, mut waiting] = any_strips(random);
            (strip.handle.length, waiting.handle.length) = (length, length);
            for (mark, wanted) in [(false, Err(NotFound)), (true, Ok(()))] {
                // zeros below the length, all waiting or none; anything past it
                for (place, (x, y)) in (0..).zip(strip.words.iter_mut().zip(&mut waiting.words)) {
                    let below = length.saturating_sub(64 * place).min(64);
                    let past = if below == 64 { 0 } else { u64::MAX << below };
                    *x &= past;
                    *y = *y & past | if mark { !past } else { 0 };
                }
                for k in [0, 1, length / 2, length.saturating_sub(1)].into_iter().filter(|k| *k < length) {
                    let wanted = wanted.map(|()| Bounds { low: k, high: None });
                    expect_waiting(Waiting::Find(k), [&strip, &waiting], 0..words_below(length), wanted);
                }
                for k in [length, length + 1, CAPACITY].into_iter().chain(FAR) {
                    expect_waiting(Waiting::Find(k), [&strip, &waiting], 0..0, Err(NotFound));
                }
            }
        }
    });
}

/// A refused call reads nothing, but for a find's 6, which stands above.
#[test]
fn refused_read_nothing() {
    let of_words = |capacity, length, count| strip(capacity, length, vec![u64::MAX; count]);
    let good = of_words(CAPACITY, LENGTH, WORDS);
    for (other, refusal) in [
        (of_words(CAPACITY, CAPACITY + 1, WORDS), BadHandle),
        (of_words(CAPACITY - 1, LENGTH, WORDS), BadHandle),
        (of_words(0, 0, WORDS), BadHandle),
        (above(of_words(CAPACITY, LENGTH, WORDS)), BadHandle),
        (of_words(CAPACITY, LENGTH, WORDS - 1), WordCount),
        (of_words(CAPACITY, LENGTH, WORDS + 1), WordCount),
        (of_words(CAPACITY, LENGTH - 1, WORDS), Unequal),
        (of_words(CAPACITY + 512, LENGTH, word_count(CAPACITY + 512)), Unequal),
    ] {
        for i in [0, 1, 64, LENGTH - 1, LENGTH, u64::MAX] {
            for comparison in counts(i).into_iter().chain([Find(i), Span(0, i), Span(i, LENGTH)]) {
                expect(comparison, [&good, &other], 0..0, Err(refusal));
                expect(comparison, [&other, &good], 0..0, Err(refusal));
            }
            for call in [Waiting::Count(i), Waiting::Find(i)] {
                expect_waiting(call, [&good, &other], 0..0, Err(refusal));
                expect_waiting(call, [&other, &good], 0..0, Err(refusal));
            }
        }
    }
    for above in [LENGTH + 1, CAPACITY, CAPACITY + 1].into_iter().chain(FAR) {
        for comparison in counts(above).into_iter().chain([Span(0, above), Span(LENGTH, above), Span(above, above)]) {
            expect(comparison, [&good, &good], 0..0, Err(Position));
        }
        expect_waiting(Waiting::Count(above), [&good, &good], 0..0, Err(Position));
        for b in [0, 64, LENGTH, above - 1] {
            expect(Span(above, b), [&good, &good], 0..0, Err(Refusal::Span));
        }
    }
    for (a, b) in [(1, 0), (64, 63), (65, 64), (LENGTH, LENGTH - 1), (LENGTH, 0)] {
        expect(Span(a, b), [&good, &good], 0..0, Err(Refusal::Span));
    }
}

/// A find's 6 on one strip comes from its handle: no word and no counter is read.
#[test]
fn find_of_none_on_a_strip_reads_nothing() {
    let needed = counters_needed(CAPACITY).unwrap() as usize;
    let pages = [WORDS, needed / 2].map(|count| Pages::new(&vec![u64::MAX; count], 0..0, 0));
    let [(words, count), (counters, _)] = [pages[0].lend(), pages[1].lend()];
    for total in [0, 1, LENGTH / 2, LENGTH - 1, LENGTH] {
        for (v, number) in [(1, total), (0, LENGTH - total)] {
            for k in [0, 1, LENGTH, CAPACITY].into_iter().chain(FAR).map(|more| number.saturating_add(more)) {
                let counters = counters.cast::<u32>();
                // SAFETY: as in `expect`; the counters too.
                let told = unsafe { strip_select(CAPACITY, LENGTH, total, words, count, counters, needed, v, k) };
                assert_eq!(answer(told), Err(NotFound), "{v}, {k}, total {total}");
            }
        }
    }
}

/// Freezes where these words alone can be read, and asserts the answer and every byte: with a closed page right before them,
/// and with one right after them.
fn expect_freeze(strip: &Strip, bits: &[bool], open: Range<usize>, image: &[u8], label: u64) -> Answer {
    let mut wanted = image.to_vec();
    let owed = layout::freeze(strip.handle, bits, &mut wanted, label);
    for border in [open.start, open.end] {
        let pages = Pages::new(&strip.words, open.clone(), border);
        let ((words, count), mut given) = (pages.lend(), image.to_vec());
        // SAFETY: as in `expect`.
        let told = unsafe { freeze_from((strip.handle, words, count), &mut given, label) };
        assert_eq!(told, owed, "label {label} under {:?}, words {open:?}", strip.handle);
        assert!(given == wanted, "bytes of label {label} under {:?}, words {open:?}", strip.handle);
    }
    owed
}

/// Freeze reads up to the last word that the length reaches: at the ends of the words of two superblocks, and further on.
#[test]
fn freeze_reads() {
    Cases::new("reads", "freeze_reads", 510).run(|random| {
        let [mut strip, _] = any_strips(random);
        let bits = model::bits_of(&strip.words);
        let ends = (1..=129).flat_map(|word| beside(64 * word));
        for length in ends.chain(positions()).chain([0, LENGTH, CAPACITY - 1, CAPACITY]) {
            strip.handle.length = length;
            let image = layout::image(&[], layout::size(length) / 16);
            assert_eq!(expect_freeze(&strip, &bits, 0..words_below(length), &image, 3), Ok(1));
        }
    });
}

/// A refused one reads nothing.
#[test]
fn refused_freeze_reads_nothing() {
    let image = layout::image(&[(0, 3, vec![true; 7])], layout::size(LENGTH) / 16);
    let (short, mut unsound) = (&image[..image.len() - 1], image.clone());
    unsound[8] = 1;
    let good = Handle::new(CAPACITY, LENGTH);
    for (handle, count, image, label, refusal) in [
        (Handle::new(CAPACITY, CAPACITY + 1), WORDS, &image[..], 4, BadHandle),
        (Handle::new(CAPACITY - 1, LENGTH), WORDS, &image, 4, BadHandle),
        (good.with(LENGTH + 1), WORDS, &image, 4, BadHandle),
        (good, WORDS - 1, &image, 4, WordCount),
        (good, WORDS + 1, &image, 4, WordCount),
        (good, WORDS, &unsound, 4, Unsound),
        (good, WORDS, &image, 65, BadLabel),
        (good, WORDS, &image, 3, LabelPresent),
        (good, WORDS, short, 4, NoRoom),
    ] {
        let strip = Strip { handle, words: vec![u64::MAX; count] };
        let bits = model::bits_of(&strip.words);
        assert_eq!(expect_freeze(&strip, &bits, 0..0, image, label), Err(refusal));
    }
}

/// Seeks a burst where these words alone can be read, and asserts the answer: with a closed page right before them, and with
/// one right after them.
fn expect_burst(w: u64, m: u64, strip: &Strip, open: Range<usize>, wanted: Answer) {
    for border in [open.start, open.end] {
        let pages = Pages::new(&strip.words, open.clone(), border);
        let (words, count) = pages.lend();
        // SAFETY: as in `expect`.
        let told = unsafe { Burst { w, m }.ask((strip.handle, words, count)) };
        assert_eq!(told, wanted, "burst({w}, {m}) under {:?}, words {open:?}", strip.handle);
    }
}

/// A burst is sought up to the last word that the length reaches: where there is none, and where the last start alone
/// qualifies. All past the length are ones.
#[test]
fn burst_reads() {
    for length in positions().into_iter().chain([0, LENGTH, CAPACITY - 1, CAPACITY]) {
        let mut strip = strip(CAPACITY, length, vec![0; WORDS]);
        for (place, word) in (0..).zip(&mut strip.words) {
            let below = length.saturating_sub(64 * place).min(64);
            *word = if below == 64 { 0 } else { u64::MAX << below };
        }
        let widths = [1, 2, 63, 64, 65, 500, 512, length / 2, length / 64 * 64, length - length.min(1), length];
        for w in widths.into_iter().filter(|w| (1..=length.min(WIDEST)).contains(w)) {
            expect_burst(w, 1, &strip, 0..words_below(length), Err(NotFound));
            expect_burst(w, w, &strip, 0..words_below(length), Err(NotFound));
            strip.words[(length as usize - 1) / 64] ^= 1 << ((length - 1) % 64);
            expect_burst(w, 1, &strip, 0..words_below(length), Ok(length - w));
            strip.words[(length as usize - 1) / 64] ^= 1 << ((length - 1) % 64);
        }
        for w in [length + 1, length + 64, WIDEST].into_iter().filter(|w| (length + 1..=WIDEST).contains(w)) {
            expect_burst(w, 1, &strip, 0..0, Err(NotFound));
        }
    }
}

/// One that is refused by its handle, its words or its window reads nothing.
#[test]
fn refused_burst_reads_nothing() {
    let of_words = |capacity, length, count| strip(capacity, length, vec![u64::MAX; count]);
    for (strip, refusal) in [
        (of_words(CAPACITY, CAPACITY + 1, WORDS), BadHandle),
        (of_words(CAPACITY - 1, LENGTH, WORDS), BadHandle),
        (of_words(0, 0, WORDS), BadHandle),
        (above(of_words(CAPACITY, LENGTH, WORDS)), BadHandle),
        (of_words(CAPACITY, LENGTH, WORDS - 1), WordCount),
        (of_words(CAPACITY, LENGTH, WORDS + 1), WordCount),
    ] {
        for (w, m) in [(1, 1), (64, 65), (LENGTH, 1), (0, 0), (WIDEST + 1, 1)] {
            expect_burst(w, m, &strip, 0..0, Err(refusal));
        }
    }
    let good = of_words(CAPACITY, LENGTH, WORDS);
    for (w, m) in [(0, 0), (0, 1), (1, 0), (64, 65), (64, WIDE + 1), (WIDEST + 1, 1), (WIDE + 1, 1), (u64::MAX, 1)] {
        expect_burst(w, m, &good, 0..0, Err(BadWindow));
    }
}
