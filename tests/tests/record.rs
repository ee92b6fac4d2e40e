//! The eight calls on a record, against the plain model and against answers worked out by hand.
use strip_tests::borders::{
    self, beside, lengths, totals, BAD_CAPACITIES, BAD_VALUES, COUNTERS, FAR, LARGEST, ONE_LEVEL, THREE_LEVELS,
    TWO_LEVELS, TWO_LEVELS_FULL, UNITS, VALUES,
};
use strip_tests::cases::{at_call, Cases};
use strip_tests::model::{self, counter_count, word_count, Strip};
use strip_tests::random::Random;
use strip_tests::record::{counters_needed, Change, Reading, Record, Report};
use strip_tests::refusal::{Answer, Refusal};
use strip_tests::Handle;
use Change::{Create, Fill, Flip, Push, Truncate};
use Reading::{Rank, Select, Verify};
use Refusal::*;

const A: &str = "01101101010101110";

/// The report of a refused change: the handle that it got.
fn refused(refusal: Refusal, handle: Handle) -> Report {
    Report { told: Err(refusal), handle }
}

/// A strip of the model, and the record that holds it.
struct Pair {
    strip: Strip,
    record: Record,
}

impl Pair {
    /// The words are set, and a run over an empty span lays the counters.
    fn new(capacity: u64, bits: Vec<bool>) -> Pair {
        let strip = Strip::new(capacity, bits);
        let record = Record::new(&strip.words(), &vec![0xdead_beef; counter_count(capacity)]);
        let mut pair = Pair { strip, record };
        pair.change(Fill(0, 0, 1));
        pair
    }

    /// Laid, then an add for each bit.
    fn pushed(capacity: u64, bits: &[bool]) -> Pair {
        let strip = Strip::new(capacity, Vec::new());
        let junk = vec![0xdead_beef; counter_count(capacity)];
        let mut pair = Pair { strip, record: Record::new(&vec![u64::MAX; word_count(capacity)], &junk) };
        pair.change(Create(capacity));
        for bit in bits {
            pair.change(Push(u64::from(*bit)));
        }
        pair
    }

    fn from_text(capacity: u64, text: &str) -> Pair {
        Pair::pushed(capacity, &text.bytes().map(|c| c == b'1').collect::<Vec<bool>>())
    }

    fn handle(&self) -> Handle {
        self.strip.handle()
    }

    /// Makes the change on both. On a record with few counters, looks which of them changed.
    fn change(&mut self, change: Change) -> Report {
        let h = self.handle();
        let counters = if self.record.counters().len() < 1000 { self.record.counters().to_vec() } else { Vec::new() };
        let report = self.record.change(h, change);
        assert_eq!(report, self.model_change(change), "{change:?} under {h:?}");
        if let (Ok((_, number)), Push(_) | Flip(_), false) = (report.told, change, counters.is_empty()) {
            let changed = counters.iter().zip(self.record.counters()).filter(|(old, new)| old != new).count();
            assert_eq!(number, changed as u64, "{change:?} under {h:?}");
        }
        report
    }

    /// Makes the change on the model alone; a refused lay gives no handle.
    fn model_change(&mut self, change: Change) -> Report {
        let told = self.strip.step(self.record.sizes(), change.into());
        let none = told.is_err() && matches!(change, Create(_));
        Report { told, handle: if none { Handle::new(0, 0) } else { self.handle() } }
    }

    fn read(&mut self, reading: Reading) -> Answer {
        let h = self.handle();
        let answer = self.record.read(h, reading);
        let wanted = self.strip.step(self.record.sizes(), reading.into()).map(|(value, _)| value);
        assert_eq!(answer, wanted, "{reading:?} under {h:?}");
        answer
    }

    /// Compares all words and all counters with those laid afresh, and the total with the ones.
    fn compare(&self) {
        assert_eq!(self.handle().total, self.strip.ones(), "total under {:?}", self.handle());
        assert!(self.record.words() == self.strip.words(), "words under {:?}", self.handle());
        assert!(self.record.counters() == self.strip.counters(), "counters under {:?}", self.handle());
    }
}

/// A position below n, often beside the end of a word, a block, a group, a node.
fn place(random: &mut Random, n: u64) -> u64 {
    let unit = if random.below(4) == 0 { 1 } else { UNITS[random.below(UNITS.len())] };
    let edge = random.number_below(n / unit + 1) * unit + random.number_below(3);
    edge.saturating_sub(1).min(n - 1)
}

// ---- examples

#[test]
fn p1_to_p6() {
    let mut a = Pair::from_text(512, A);
    a.compare();
    assert_eq!(a.read(Rank(1, 8)), Ok(5));
    assert_eq!(a.read(Rank(1, 7)), Ok(4));
    assert_eq!(a.read(Select(1, 7)), Ok(13));
    assert_eq!(a.read(Rank(1, 17)), Ok(10));
    assert_eq!(a.read(Rank(1, 18)), Err(Position));
    assert_eq!(a.read(Select(1, 9)), Ok(15));
    assert_eq!(a.read(Select(1, 10)), Err(NotFound));
    assert_eq!(a.read(Verify), Ok(10));
    // P3
    a.change(Flip(3));
    a.change(Flip(6));
    assert_eq!(a.read(Rank(1, 8)), Ok(7));
    assert_eq!(a.read(Select(1, 7)), Ok(9));
    // P6
    let mut empty = Pair::from_text(512, "");
    assert_eq!(empty.read(Rank(0, 0)), Ok(0));
    assert_eq!(empty.read(Select(0, 0)), Err(NotFound));
}

#[test]
fn p7_to_p10() {
    let mut a = Pair::from_text(512, A);
    for (place, counter) in a.record.counters().iter().enumerate() {
        let ten = (1..8).contains(&place) || (8..16).contains(&place);
        assert_eq!(*counter, if ten { 10 } else { 0 });
    }
    let h = a.handle();
    assert_eq!(a.change(Flip(3)), Report { told: Ok((1, 15)), handle: h.with(11) });
    let mut full = Pair::new(32_768, vec![true; 32_768]);
    let h = full.handle();
    assert_eq!(full.change(Flip(32_767)), Report { told: Ok((0, 1)), handle: h.with(32_767) });
    let mut full = Pair::new(33_280, vec![true; 33_280]);
    let h = full.handle();
    assert_eq!(full.change(Flip(32_768)), Report { told: Ok((0, 29)), handle: h.with(33_279) });
}

#[test]
fn p11() {
    for (capacity, number) in COUNTERS {
        assert_eq!(counters_needed(capacity), Ok(number as u64));
        let mut record = Record::new(&vec![u64::MAX; word_count(capacity)], &vec![u32::MAX; number]);
        let handle = Handle::new(capacity, 0);
        // the handle that it gets is of no account to create
        let report = record.change(Handle::new(1, 2).with(3), Create(capacity));
        assert_eq!(report, Report { told: Ok((number as u64, 0)), handle });
        assert!(record.words().iter().all(|word| *word == 0) && record.counters().iter().all(|counter| *counter == 0));
        assert_eq!(record.read(handle, Verify), Ok(0));
    }
}

/// For turn and add of 1 the number is 15 - (c mod 8) - (c div 8), added over the levels; the counters changed are those
/// that count the stroke.
#[test]
fn counters_changed() {
    let mut cases = Cases::new("record", "counters_changed", 11);
    for capacity in [512, 4096, ONE_LEVEL, TWO_LEVELS, TWO_LEVELS_FULL, THREE_LEVELS] {
        cases.run(|random| {
            let mut pair = Pair::new(capacity, random.bits(capacity, 500));
            for call in 0..300 {
                at_call(call);
                counters_changed_by(&mut pair, place(random, capacity));
            }
            pair.compare();
        });
    }
}

/// Turns a stroke: what is told, and which counters change by one.
fn counters_changed_by(pair: &mut Pair, p: u64) {
    let before = pair.record.counters().to_vec();
    let (bit, number) = pair.change(Flip(p)).told.unwrap();
    let after = pair.record.counters();
    let changed: Vec<usize> = (0..before.len()).filter(|x| before[*x] != after[*x]).collect();
    assert_eq!(changed, model::counting(pair.strip.capacity, p));
    assert_eq!(number as usize, changed.len());
    let step = if bit == 1 { 1 } else { u32::MAX };
    assert!(changed.iter().all(|x| after[*x] == before[*x].wrapping_add(step)));
}

// ---- lists of edits

fn random_change(random: &mut Random, h: Handle) -> Change {
    let Handle { capacity, length, .. } = h;
    let v = random.number_below(2);
    let [mut a, mut b] = [0, 0].map(|_| place(random, length + 1));
    if a > b {
        (a, b) = (b, a);
    }
    match random.below(200) {
        0..=79 => Push(v),
        80..=139 if length > 0 => Flip(place(random, length)),
        140..=149 => Fill(a, b, v),
        150..=164 => Fill(a, (a + random.number_below(200)).min(length), v),
        165..=179 => Truncate(length - random.number_below(70).min(length)),
        180 => Truncate(a),
        181 => Create(capacity),
        182..=184 => Push(BAD_VALUES[random.below(BAD_VALUES.len())]),
        185..=187 => Flip(length + random.number_below(3)),
        188..=190 => Fill(b + 1 + random.number_below(3), b, v),
        191..=193 => Fill(a, length + 1 + random.number_below(3), v),
        194..=196 => Truncate(length + 1 + random.number_below(3)),
        197 => Create([0, 511, capacity + 1, LARGEST + 512][random.below(4)]),
        198 => Create(if capacity == 512 { 1024 } else { 512 }),
        _ => Flip(FAR[random.below(FAR.len())]),
    }
}

fn random_reading(random: &mut Random, h: Handle) -> Reading {
    let v = random.number_below(2);
    match random.below(20) {
        0 => Rank(BAD_VALUES[random.below(BAD_VALUES.len())], h.length),
        1 => Rank(v, h.length + 1),
        2 => Rank(v, h.length),
        3 => Select(BAD_VALUES[random.below(BAD_VALUES.len())], 0),
        4 => Select(v, FAR[random.below(FAR.len())]),
        5 => Verify,
        6..=11 => Rank(v, place(random, h.length + 1)),
        _ => Select(v, random.number_below(h.length / 2 + 2)),
    }
}

/// A list of random edits, each followed by a reading; all words and counters are compared after every `stride` of them.
fn drive(random: &mut Random, pair: &mut Pair, edits: usize, stride: usize) {
    for step in 1..=edits {
        at_call(step);
        pair.change(random_change(random, pair.strip.handle()));
        let _ = pair.read(random_reading(random, pair.strip.handle()));
        if step % stride == 0 {
            pair.compare();
        }
    }
    pair.compare();
    assert_eq!(pair.read(Verify), Ok(pair.strip.ones()));
}

#[test]
fn edits_from_nothing() {
    let mut cases = Cases::new("record", "edits_from_nothing", 21);
    for capacity in [512, 1024, ONE_LEVEL, TWO_LEVELS] {
        cases.run(|random| drive(random, &mut Pair::pushed(capacity, &[]), 3000, 1));
    }
}

#[test]
fn edits() {
    let mut cases = Cases::new("record", "edits", 22);
    for capacity in [512, ONE_LEVEL, TWO_LEVELS] {
        for share in [0, 3, 500, 997, 1000] {
            for length in [capacity, capacity - 15, capacity - 512, capacity / 2 + 1] {
                cases.run(|random| {
                    let bits = random.bits(length, share);
                    drive(random, &mut Pair::new(capacity, bits), 300, 1);
                });
            }
        }
    }
}

/// A list of edits from a strip of this length.
fn edits_at(cases: &mut Cases, capacity: u64, length: u64) {
    cases.run(|random| {
        let bits = random.bits(length, 500);
        drive(random, &mut Pair::new(capacity, bits), 150, 10);
    });
}

#[test]
fn edits_at_two_levels() {
    let mut cases = Cases::new("record", "edits_at_two_levels", 23);
    for length in [TWO_LEVELS_FULL, TWO_LEVELS_FULL - 40, 1_000_000] {
        edits_at(&mut cases, TWO_LEVELS_FULL, length);
    }
}

#[test]
fn edits_at_three_levels() {
    let mut cases = Cases::new("record", "edits_at_three_levels", 24);
    for length in [THREE_LEVELS, TWO_LEVELS_FULL - 3, TWO_LEVELS_FULL + 3] {
        edits_at(&mut cases, THREE_LEVELS, length);
    }
}

#[test]
fn edits_at_the_largest() {
    Cases::new("record", "edits_at_the_largest", 25).run(|random| {
        let words: Vec<u64> = (0..word_count(LARGEST)).map(|_| random.number()).collect();
        let mut pair = Pair::new(LARGEST, model::bits_of(&words));
        assert_eq!(pair.change(Push(1)).told, Err(Full));
        for p in [0, LARGEST / 2, LARGEST - 1] {
            pair.change(Flip(p));
        }
        for v in [0, 1] {
            let number = pair.read(Rank(v, LARGEST)).unwrap();
            pair.read(Select(v, 0)).unwrap();
            pair.read(Select(v, number - 1)).unwrap();
            assert_eq!(pair.read(Select(v, number)), Err(NotFound));
        }
        pair.change(Truncate(LARGEST - 30));
        drive(random, &mut pair, 60, 60);
    });
}

// ---- full strips

/// Asserts that the strip is full: the counts at its end, the first and the last find of each value, and 7.
fn full(pair: &mut Pair) {
    let h = pair.handle();
    assert_eq!(h.length, h.capacity);
    for v in [0, 1] {
        let number = pair.read(Rank(v, h.length)).unwrap();
        pair.read(Rank(v, h.length - 1)).unwrap();
        assert_eq!(pair.read(Select(v, number)), Err(NotFound));
        if number > 0 {
            pair.read(Select(v, 0)).unwrap();
            pair.read(Select(v, number - 1)).unwrap();
        }
        assert_eq!(pair.change(Push(v)), refused(Full, h));
    }
    assert_eq!(pair.read(Verify), Ok(pair.strip.ones()));
    pair.compare();
}

#[test]
fn full_strips() {
    let mut cases = Cases::new("record", "full_strips", 31);
    for capacity in [512, ONE_LEVEL, TWO_LEVELS, TWO_LEVELS_FULL] {
        for share in [0, 1, 500, 1000] {
            cases.run(|random| {
                let mut pair = Pair::new(capacity, random.bits(capacity, share));
                full(&mut pair);
                // the last stroke turned, and the first
                pair.change(Flip(capacity - 1));
                pair.change(Flip(0));
                full(&mut pair);
            });
        }
    }
}

/// An add at a time, up to the capacity.
#[test]
fn push_until_full() {
    let mut cases = Cases::new("record", "push_until_full", 32);
    for capacity in [512, ONE_LEVEL, TWO_LEVELS, TWO_LEVELS_FULL] {
        cases.run(|random| {
            let mut record = Record::new(&vec![u64::MAX; word_count(capacity)], &vec![7; counter_count(capacity)]);
            let mut strip = Strip::new(capacity, Vec::new());
            let mut h = record.change(strip.handle(), Create(capacity)).handle;
            for p in 0..capacity {
                at_call(p as usize);
                let push = Push(random.number_below(2));
                let report = record.change(h, push);
                assert_eq!(report.told, strip.step(record.sizes(), push.into()));
                assert_eq!(report.told.map(|(position, _)| position), Ok(p));
                h = report.handle;
                assert_eq!(h, strip.handle());
            }
            full(&mut Pair { strip, record });
        });
    }
}

/// Every find and every count of a strip of each density.
#[test]
fn every_position() {
    let mut cases = Cases::new("record", "every_position", 33);
    for capacity in [512, 4608, TWO_LEVELS] {
        for share in [2, 500, 998] {
            cases.run(|random| {
                let length = capacity - random.number_below(40);
                read_all(&mut Pair::new(capacity, random.bits(length, share)));
            });
        }
    }
}

/// Counts both values at each position, and finds each stroke.
fn read_all(pair: &mut Pair) {
    let h = pair.handle();
    let mut seen = [0; 2];
    for p in 0..=h.length {
        for (v, count) in (0..).zip(seen) {
            assert_eq!(pair.record.read(h, Rank(v, p)), Ok(count));
        }
        if p < h.length {
            let v = usize::from(pair.strip.bits()[p as usize]);
            assert_eq!(pair.record.read(h, Select(v as u64, seen[v])), Ok(p));
            seen[v] += 1;
        }
    }
    for (v, count) in (0..).zip(seen) {
        assert_eq!(pair.read(Select(v, count)), Err(NotFound));
    }
}

// ---- refusals

/// Asserts that a change is refused so, gives back the handle that it got, and changes nothing.
fn change_refused(record: &mut Record, h: Handle, change: Change, refusal: Refusal) {
    let (words, counters) = (record.words().to_vec(), record.counters().to_vec());
    let handle = if matches!(change, Create(_)) { Handle::new(0, 0) } else { h };
    let report = record.change(h, change);
    assert_eq!(report, refused(refusal, handle), "{change:?} under {h:?}, lent {:?}", record.sizes());
    assert!(record.words() == words && record.counters() == counters, "{change:?} under {h:?} changed the record");
}

fn reading_refused(record: &mut Record, h: Handle, reading: Reading, refusal: Refusal) {
    assert_eq!(record.read(h, reading), Err(refusal), "{reading:?} under {h:?}, lent {:?}", record.sizes());
}

/// Every call is refused so, whatever its arguments.
fn all_refused(record: &mut Record, h: Handle, refusal: Refusal) {
    let places = [&[0, 1, h.length, h.length.wrapping_add(1)][..], &FAR].concat();
    for v in VALUES {
        change_refused(record, h, Push(v), refusal);
        for &i in &places {
            change_refused(record, h, Fill(i, 1, v), refusal);
            reading_refused(record, h, Rank(v, i), refusal);
            reading_refused(record, h, Select(v, i), refusal);
        }
    }
    for i in places {
        change_refused(record, h, Flip(i), refusal);
        change_refused(record, h, Truncate(i), refusal);
    }
    reading_refused(record, h, Verify, refusal);
}

#[test]
fn bad_handles() {
    for (words, counters) in [(0, 0), (8, 72), (16, 72), (8, 0), (9, 71)] {
        let mut record = Record::new(&vec![u64::MAX; words], &vec![3; counters]);
        for h in borders::bad_handles() {
            all_refused(&mut record, h, BadHandle);
        }
        for capacity in BAD_CAPACITIES {
            change_refused(&mut record, Handle::new(512, 0), Create(capacity), BadHandle);
        }
    }
}

#[test]
fn wrong_sizes() {
    for capacity in [512, 1024, ONE_LEVEL, TWO_LEVELS] {
        let (words, counters) = (word_count(capacity), counter_count(capacity));
        for length in [0, 1, capacity] {
            let h = Handle::new(capacity, length).with(length / 2);
            for wrong in [0, 1, words - 1, words + 1, 2 * words] {
                for any in [0, counters - 1, counters] {
                    let mut record = Record::new(&vec![u64::MAX; wrong], &vec![3; any]);
                    all_refused(&mut record, h, WordCount);
                    change_refused(&mut record, h, Create(capacity), WordCount);
                }
            }
            for wrong in [0, 1, counters - 72, counters - 1, counters + 1, counters + 72] {
                let mut record = Record::new(&vec![u64::MAX; words], &vec![3; wrong]);
                all_refused(&mut record, h, CounterCount);
                change_refused(&mut record, h, Create(capacity), CounterCount);
            }
        }
    }
    let mut record = Record::new(&vec![u64::MAX; word_count(LARGEST)], &vec![3; counter_count(LARGEST) - 72]);
    let h = Handle::new(LARGEST, 5);
    reading_refused(&mut record, h, Verify, CounterCount);
    reading_refused(&mut record, h, Rank(2, 6), CounterCount);
    change_refused(&mut record, h, Truncate(6), CounterCount);
    change_refused(&mut record, h, Create(LARGEST), CounterCount);
}

/// A record of ones under capacity 1024 with some of these faults: its handle, by the length or the total, its words, its
/// counters.
fn faulty([above, long, words, counters]: [bool; 4], length: u64, total: u64) -> (Record, Handle) {
    let strip = Strip::new(1024, vec![true; length as usize]);
    let (mut packed_words, mut built_counters) = (strip.words(), strip.counters());
    packed_words.resize(if words { 15 } else { 16 }, 0);
    built_counters.resize(if counters { 73 } else { 72 }, 0);
    let length = if long { 1025 } else { length };
    let h = Handle::new(1024, length).with(if above { length + 1 } else { total });
    (Record::new(&packed_words, &built_counters), h)
}

/// Every set of faults of a call at once: the first in its order is the answer.
#[test]
fn first_refusal_wins() {
    for faults in 0..128 {
        let has = |n: u32| faults / 2u32.pow(n) % 2 == 1;
        let lent = [has(0), has(1), has(2), has(3)];
        let common = [(lent[0] || lent[1], BadHandle), (lent[2], WordCount), (lent[3], CounterCount)];
        let first = |own: &[(bool, Refusal)]| common.iter().chain(own).find(|(applies, _)| *applies).map(|(_, r)| *r);
        let changes = |length: u64, total: u64, change: Change, own: &[(bool, Refusal)]| {
            let (mut record, h) = faulty(lent, length, total);
            match first(own) {
                Some(refusal) => change_refused(&mut record, h, change, refusal),
                None => assert!(record.change(h, change).told.is_ok(), "{change:?} under {h:?}"),
            }
        };
        let reads = |total: u64, reading: Reading, own: &[(bool, Refusal)]| {
            let (mut record, h) = faulty(lent, 700, total);
            match first(own) {
                Some(refusal) => reading_refused(&mut record, h, reading, refusal),
                None => assert!(record.read(h, reading).is_ok(), "{reading:?} under {h:?}"),
            }
        };
        let (x, y, z) = (has(4), has(5), has(6));
        let v = if x { 2 } else { 1 };
        // a position past the length also where the length is 1025
        let past = |p: u64, far: bool| if far { 1026 } else { p };
        let length = if y { 1024 } else { 700 };
        changes(length, length, Push(v), &[(x, BadValue), (y, Full)]);
        changes(700, if y { 0 } else { 700 }, Flip(past(699, x)), &[(x, Position), (y, Unfit)]);
        let b = past(300, z);
        changes(700, 700, Fill(if y { b + 1 } else { 200 }, b, v), &[(x, BadValue), (y, Span), (z, Position)]);
        changes(700, 700, Truncate(past(700, x)), &[(x, Position)]);
        changes(700, 700, Create(if lent[0] || lent[1] { 1025 } else { 1024 }), &[]);
        reads(700, Rank(v, past(700, y)), &[(x, BadValue), (y, Position)]);
        reads(700, Select(v, if y { 700 } else { 699 }), &[(x, BadValue), (y, NotFound)]);
        // a total that is below the ones: 6 by the total alone
        reads(600, Select(v, if y { 600 } else { 599 }), &[(x, BadValue), (y, NotFound)]);
        reads(if x { 699 } else { 700 }, Verify, &[(x, Unfit)]);
    }
}

#[test]
fn refusals_of_a_full_strip() {
    let mut pair = Pair::new(512, vec![true; 512]);
    let h = pair.handle();
    // add: 8 before 7
    for (v, refusal) in [(2, BadValue), (u64::MAX, BadValue), (0, Full), (1, Full)] {
        change_refused(&mut pair.record, h, Push(v), refusal);
    }
    // run: 8, then 5, then 4
    change_refused(&mut pair.record, h, Fill(9, 3, 2), BadValue);
    change_refused(&mut pair.record, h, Fill(9, 3, 1), Span);
    change_refused(&mut pair.record, h, Fill(700, 600, 1), Span);
    change_refused(&mut pair.record, h, Fill(600, 700, 1), Position);
    change_refused(&mut pair.record, h, Fill(u64::MAX, u64::MAX, 1), Position);
    // at the length: count and cut take it, turn does not
    assert_eq!(pair.read(Rank(1, 512)), Ok(512));
    assert_eq!(pair.read(Rank(1, 513)), Err(Position));
    change_refused(&mut pair.record, h, Flip(512), Position);
    change_refused(&mut pair.record, h, Truncate(513), Position);
    assert_eq!(pair.change(Truncate(512)).told, Ok((512, 0)));
    pair.compare();
}

/// With an `out` of fewer than six numbers nothing runs.
#[test]
fn short_out() {
    let mut pair = Pair::from_text(512, A);
    let changes =
        [Create(512), Push(1), Push(2), Flip(3), Flip(17), Fill(2, 9, 1), Fill(9, 2, 1), Truncate(4), Truncate(18)];
    for room in 0..6 {
        for change in changes {
            pair.record.idle(pair.strip.handle(), change, room);
            pair.compare();
        }
    }
}

// ---- damaged records

/// The strip of a record: the bits below the length.
fn strip_of(record: &Record, h: Handle) -> Strip {
    let mut bits = model::bits_of(record.words());
    bits.truncate(h.length as usize);
    Strip::new(h.capacity, bits)
}

/// The record fits, by its definition: zeros past the length, every counter as defined for the words, and as many ones as the
/// total.
fn fits(record: &Record, h: Handle) -> bool {
    let bits = model::bits_of(record.words());
    bits[h.length as usize..].iter().all(|b| !b)
        && record.counters() == model::counters_of(h.capacity, &bits)
        && h.total == model::number_of(&bits, true)
}

/// Adds or turns on any record: 9 and nothing changed, exactly where a turn would take the total out of its range; else the
/// total moves with the bit, and no bit changes but the stroke's and no counter that does not count it.
fn near(record: &Record, h: Handle, change: Change) {
    let mut copy = Record::new(record.words(), record.counters());
    let report = copy.change(h, change);
    let bit = |p: u64| record.words()[p as usize / 64] / 2u64.pow(p as u32 % 64) % 2;
    let (p, b, first, length, total) = match change {
        Push(v) => (h.length, v, h.length, h.length + 1, Some(h.total + v)),
        Flip(i) if bit(i) == 1 => (i, 0, 0, h.length, h.total.checked_sub(1)),
        Flip(i) => (i, 1, 1, h.length, (h.total < h.length).then_some(h.total + 1)),
        _ => unreachable!(),
    };
    let Some(total) = total else {
        assert_eq!(report, refused(Unfit, h), "{change:?} under {h:?}");
        assert!(copy.words() == record.words() && copy.counters() == record.counters());
        return;
    };
    let (value, number) = report.told.unwrap();
    assert_eq!((value, report.handle), (first, Handle { length, total, ..h }), "{change:?} under {h:?}");
    assert!(number <= 45);
    let mut words = record.words().to_vec();
    let weight = 2u64.pow(p as u32 % 64);
    let word = &mut words[p as usize / 64];
    *word = *word - bit(p) * weight + b * weight;
    assert!(copy.words() == words, "{change:?} under {h:?}");
    let counting = model::counting(h.capacity, p);
    for x in 0..copy.counters().len() {
        let same = copy.counters()[x] == record.counters()[x];
        assert!(same || counting.contains(&x), "{change:?} under {h:?}, counter {x}");
    }
}

/// What count and find owe on any record: 6 exactly where length and total give too few of v; else a value within bounds, or 9
/// where the record does not fit.
fn any_reading(record: &mut Record, h: Handle, reading: Reading, fit: bool) {
    let told = record.read(h, reading);
    let allowed = match (reading, told) {
        (Select(v, k), told) if k >= h.number_of(v == 1) => told == Err(NotFound),
        (_, Err(Unfit)) => !fit,
        (Rank(_, i), Ok(count)) => count <= i,
        (Select(..), Ok(position)) => position < h.length,
        _ => false,
    };
    assert!(allowed, "{reading:?} under {h:?}: {told:?}");
}

/// What every call owes on a record under this handle, fitting or not.
fn any_record(random: &mut Random, record: &mut Record, h: Handle) {
    let fit = fits(record, h);
    let (words, counters) = (record.words().to_vec(), record.counters().to_vec());
    for _ in 0..20 {
        for v in [0, 1] {
            any_reading(record, h, Rank(v, place(random, h.length + 1)), fit);
            any_reading(record, h, Select(v, place(random, h.length + 1)), fit);
        }
    }
    for v in [0, 1] {
        any_reading(record, h, Rank(v, h.length), fit);
        for k in beside(h.number_of(v == 1)).into_iter().chain([0]) {
            any_reading(record, h, Select(v, k), fit);
        }
        for k in FAR.into_iter().chain([h.length]) {
            assert_eq!(record.read(h, Select(v, k)), Err(NotFound), "k at or past the length");
        }
    }
    let ones = model::number_of(&model::bits_of(&words), true);
    assert_eq!(record.read(h, Verify), if fit { Ok(ones) } else { Err(Unfit) });
    assert!(record.words() == words && record.counters() == counters, "a reading changed the record");
    for v in [0, 1] {
        if h.length < h.capacity {
            near(record, h, Push(v));
        }
        if h.length > 0 {
            near(record, h, Flip(place(random, h.length)));
        }
    }
    // the refusals of the arguments come first
    reading_refused(record, h, Rank(2, 0), BadValue);
    reading_refused(record, h, Rank(1, h.length + 1), Position);
    reading_refused(record, h, Select(2, 0), BadValue);
    change_refused(record, h, Push(2), BadValue);
    change_refused(record, h, Flip(h.length), Position);
    let [a, b] = [0; 2].map(|_| random.number_below(h.length + 1));
    for change in [Fill(h.length, h.length, 1), Fill(a.min(b), a.max(b), a % 2), Truncate(h.length), Truncate(a)] {
        repaired(record, h, change);
    }
}

/// A run or a cut leaves a fitting record of the bits below the length, and their ones as the total.
fn repaired(record: &Record, h: Handle, change: Change) {
    let mut copy = Record::new(record.words(), record.counters());
    let mut strip = strip_of(record, h);
    let told = strip.step(record.sizes(), change.into());
    assert_eq!(copy.change(h, change), Report { told, handle: strip.handle() }, "{change:?} under {h:?}");
    let pair = Pair { strip, record: copy };
    pair.compare();
    assert!(fits(&pair.record, pair.handle()));
}

/// The damages: each takes a fitting record under a handle, and gives the handle to read it under.
fn damage(kind: usize, random: &mut Random, record: &mut Record, h: Handle) -> Handle {
    let count = record.counters().len();
    let x = random.below(count);
    match kind {
        // a bit past the length, where there is room
        0 if h.length < h.capacity => {
            let p = h.length + random.number_below(h.capacity - h.length);
            record.words_mut()[p as usize / 64] |= 1 << (p % 64);
        }
        1 => record.counters_mut()[x] = record.counters()[x].wrapping_add(1),
        2 => record.counters_mut()[x] = record.counters()[x].wrapping_sub(1),
        3 => record.counters_mut().fill_with(|| random.number() as u32),
        4 => record.counters_mut().fill_with(|| random.below(40_000) as u32),
        5 => record.counters_mut().fill(u32::MAX),
        6 => record.counters_mut().fill(0),
        7 => record.words_mut().fill_with(|| random.number()),
        8 => record.words_mut()[random.below(word_count(h.capacity))] ^= 1 << random.below(64),
        9 => {
            let length = random.number_below(h.length + 1);
            return Handle { length, total: h.total.min(length), ..h };
        }
        10 => return Handle { length: h.capacity, ..h },
        _ => {}
    }
    h
}

/// A record of a damaged strip of this length, held to what every call owes.
fn damaged(random: &mut Random, kind: usize, capacity: u64, length: u64, share: usize) {
    let Pair { strip, mut record } = Pair::new(capacity, random.bits(length, share));
    let mut h = damage(kind, random, &mut record, strip.handle());
    if random.below(2) == 0 {
        let others = [h.total.saturating_sub(1), h.total + 1, 0, h.length, random.number_below(h.length + 1)];
        h.total = others[random.below(others.len())].min(h.length);
    }
    any_record(random, &mut record, h);
}

/// Totals good and bad, on a record that fits but for them and on damaged ones: what every call owes, and above the length 1.
#[test]
fn any_total() {
    let mut cases = Cases::new("record", "any_total", 44);
    for given in lengths(1024).into_iter().map(Some).chain([None; 4]) {
        for (share, kind) in [0, 20, 500, 1000].into_iter().flat_map(|share| [11, 0, 1, 3, 7].map(|kind| (share, kind)))
        {
            cases.run(|random| {
                let length = given.unwrap_or_else(|| random.number_below(1024));
                let Pair { strip, mut record } = Pair::new(1024, random.bits(length, share));
                let h = damage(kind, random, &mut record, strip.handle());
                for h in totals(h, strip.ones()).into_iter().map(|total| h.with(total)) {
                    if h.total > h.length {
                        all_refused(&mut record, h, BadHandle);
                    } else {
                        any_record(random, &mut record, h);
                    }
                }
            });
        }
    }
}

/// Check gives 9 for a total that is not the ones of the words, at each number of levels.
#[test]
fn check_of_a_wrong_total() {
    let mut cases = Cases::new("record", "check_of_a_wrong_total", 46);
    for capacity in [ONE_LEVEL, TWO_LEVELS, THREE_LEVELS] {
        cases.run(|random| {
            let length = capacity - random.number_below(1000);
            let Pair { strip, mut record } = Pair::new(capacity, random.bits(length, 500));
            let (h, ones) = (strip.handle(), strip.ones());
            for h in totals(h, ones).into_iter().map(|total| h.with(total)).filter(|h| h.total <= h.length) {
                let wanted = if h.total == ones { Ok(ones) } else { Err(Unfit) };
                assert_eq!(record.read(h, Verify), wanted, "under {h:?}");
            }
        });
    }
}

/// Every total of a short strip: each find, each turn and each add.
#[test]
fn every_find_and_turn() {
    let mut cases = Cases::new("record", "every_find_and_turn", 45);
    for length in [0, 1, 2, 63, 64, 65] {
        for (share, kind) in [0, 500, 1000].into_iter().flat_map(|share| [11, 3, 7].map(|kind| (share, kind))) {
            cases.run(|random| {
                let Pair { strip, mut record } = Pair::new(512, random.bits(length, share));
                damage(kind, random, &mut record, strip.handle());
                for h in (0..=length).map(|total| strip.handle().with(total)) {
                    let fit = fits(&record, h);
                    for (v, k) in [0, 1].into_iter().flat_map(|v| (0..length + 2).map(move |k| (v, k))) {
                        any_reading(&mut record, h, Select(v, k), fit);
                    }
                    for change in (0..length).map(Flip).chain([Push(0), Push(1)]) {
                        near(&record, h, change);
                    }
                }
            });
        }
    }
}

#[test]
fn damaged_records() {
    let mut cases = Cases::new("record", "damaged_records", 41);
    for (capacity, rounds) in [(512, 60), (4608, 20), (ONE_LEVEL, 8), (TWO_LEVELS, 8)] {
        for kind in 0..12 {
            for _ in 0..rounds {
                cases.run(|random| {
                    let length = capacity - random.number_below(capacity.min(2000));
                    let share = [1, 500, 999][random.below(3)];
                    damaged(random, kind, capacity, length, share);
                });
            }
        }
    }
}

#[test]
fn damaged_records_at_three_levels() {
    let mut cases = Cases::new("record", "damaged_records_at_three_levels", 42);
    let kinds = (0..12).flat_map(|kind| [(TWO_LEVELS_FULL, kind), (THREE_LEVELS, kind)]);
    for (capacity, kind) in kinds.chain([(LARGEST, 5)]) {
        cases.run(|random| {
            let length = capacity - random.number_below(1000);
            damaged(random, kind, capacity, length, 500);
        });
    }
}

/// Check tells every single counter that is off by one, and every one past the length.
#[test]
fn every_counter_counts() {
    Cases::new("record", "every_counter_counts", 43).run(|random| {
        let Pair { strip, mut record } = Pair::new(TWO_LEVELS, random.bits(33_000, 500));
        let h = strip.handle();
        for x in 0..record.counters().len() {
            for step in [1, u32::MAX, 1 << 31] {
                let right = record.counters()[x];
                record.counters_mut()[x] = right.wrapping_add(step);
                assert_eq!(record.read(h, Verify), Err(Unfit), "counter {x}");
                record.counters_mut()[x] = right;
                assert_eq!(record.read(h, Verify), Ok(strip.ones()));
            }
        }
        for p in h.length..h.capacity {
            record.words_mut()[p as usize / 64] ^= 1 << (p % 64);
            assert_eq!(record.read(h, Verify), Err(Unfit), "position {p}");
            record.words_mut()[p as usize / 64] ^= 1 << (p % 64);
        }
    });
}
