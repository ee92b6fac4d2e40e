//! Times the calls on full strips and on a frozen row at 2^20, 2^24 and 2^27 bits and three densities of ones: the
//! proved library; the same by hand in C++ (tree.cpp, row.cpp), twice, to know the noise; count, find, turn and add by
//! hand with the library's checks; a plain scan; sdsl-lite and CRoaring where they are installed; and memcpy beside
//! freeze; and the calls on two strips, half ones, beside pair.cpp, and those on a strip, half ones, and its waiting
//! strip, 1/64 marks, beside waiting.cpp. All stand in one run, in alternating rounds. Each measurement asks for fresh
//! random places, and follows one of the same kind that does not count. Bursts are sought in strips of their own, beside
//! burst.cpp, a count of the ones and a count that slides bit by bit. Images of their own are merged, beside
//! inspections of both and memcpy of the result. Prints lines of tab-separated fields:
//!   time   power  density  call  column  lower quartile, median, upper quartile, in ns a call
//!   ratio  power  density  call  columns  the same, over the rounds
//!   bytes  power  density  what  bytes
//! `main ROUNDS POWER ..` takes other rounds and sizes, and `main pairs ROUNDS POWER ..` the calls on two strips alone;
//! `main bursts ROUNDS POWER ..` has the bursts, and `main merge ROUNDS POWER ..` the merges, of rows of these sizes,
//! which the others leave out.
//! `main calls POWER COUNT` only makes COUNT calls of each kind, of the library and by hand, to be counted from outside.
#[allow(dead_code)]
#[path = "../src/ffi.rs"]
mod ffi;
#[allow(dead_code)]
#[path = "../src/random.rs"]
mod random;

mod buffer;
mod burst;
mod figures;
mod merge;
mod other;
mod pair;
mod record;
mod row;
mod scan;
mod waiting;

use burst::{Burst, Words, CASES};
use figures::{quartiles, word};
use merge::Merge;
use other::{Roaring, Sdsl};
use pair::{Pair, Rule};
use random::Random;
use record::Record;
use row::Row;
use std::hint::black_box;
use std::time::Instant;
use waiting::Waiting;

extern "C" {
    fn tree_select_in_word(x: u64, k: usize) -> usize;
}

#[derive(Clone, Copy, PartialEq)]
enum Call {
    Count,
    Find(u64),
    Turn,
    Flip,
    Add,
    Next,
    Run,
    Check,
    Freeze,
    Inspect,
    RowCount,
    RowFind,
    PairCount(Rule),
    PairFind,
    PairLast,
    PairSpan,
    WaitingCount,
    WaitingFind,
    WaitingLast,
    WaitingOpen,
}
use Call::*;

const CALLS: [(Call, &str); 13] = [
    (Count, "count"),
    (Find(1), "find 1"),
    (Find(0), "find 0"),
    (Turn, "turn"),
    (Flip, "turn by flip_inplace"),
    (Add, "add"),
    (Next, "next"),
    (Run, "run"),
    (Check, "check"),
    (Freeze, "freeze"),
    (Inspect, "inspect"),
    (RowCount, "row count"),
    (RowFind, "row find"),
];

const PAIRS: [(Call, &str); 7] = [
    (PairCount(Rule::Both), "pair both"),
    (PairCount(Rule::Either), "pair either"),
    (PairCount(Rule::OnlyFirst), "pair only first"),
    (PairCount(Rule::Differ), "pair differ"),
    (PairFind, "pair find"),
    (PairLast, "pair find, last"),
    (PairSpan, "pair span"),
];

/// The finds: of a misfire in the middle, of the last that every outcome has, and of one that only some have.
const WAITING: [(Call, &str); 4] = [
    (WaitingCount, "waiting count"),
    (WaitingFind, "waiting find"),
    (WaitingLast, "waiting find, last"),
    (WaitingOpen, "waiting find, open"),
];

#[derive(Clone, Copy, PartialEq)]
enum Column {
    Library,
    Hand,
    Again,
    Passes,
    Checked,
    Popcnt,
    Scan,
    Sdsl,
    Roaring,
    Memcpy,
    Ones,
    Sliding,
    Inspections,
}

const COLUMNS: [(Column, &str); 10] = [
    (Column::Library, "library"),
    (Column::Hand, "C++"),
    (Column::Again, "C++ again"),
    (Column::Passes, "two passes"),
    (Column::Checked, "C++, checked"),
    (Column::Popcnt, "scan, popcnt"),
    (Column::Scan, "scan"),
    (Column::Sdsl, "sdsl"),
    (Column::Roaring, "CRoaring"),
    (Column::Memcpy, "memcpy"),
];

/// The columns of the bursts.
const BURSTS: [(Column, &str); 5] =
    [COLUMNS[0], COLUMNS[1], COLUMNS[2], (Column::Ones, "count of ones"), (Column::Sliding, "sliding count")];

/// The columns of the merges.
const MERGES: [(Column, &str); 3] = [COLUMNS[0], (Column::Inspections, "two inspections"), (Column::Memcpy, "memcpy")];

/// One column over the sum of others.
const RATIOS: [(Column, &[Column], &str); 7] = [
    (Column::Library, &[Column::Hand], "library / C++"),
    (Column::Again, &[Column::Hand], "C++ again / C++"),
    (Column::Library, &[Column::Checked], "library / C++, checked"),
    (Column::Library, &[Column::Passes], "library / two passes"),
    (Column::Library, &[Column::Ones], "library / count of ones"),
    (Column::Sliding, &[Column::Library], "sliding count / library"),
    (Column::Library, &[Column::Inspections, Column::Memcpy], "library / two inspections + memcpy"),
];

/// The finds on two strips that make a figure.
const PARTS: usize = 16;

/// How many calls make a figure, and whether each waits for the answer of the one before.
#[derive(Clone, Copy)]
struct Pace {
    part: usize,
    waits: bool,
}

/// Count, find and turn with nothing else between them: plainly; each call dependent on the one before; in pages of 2 MiB.
const KINDS: [(&str, bool, bool); 3] =
    [(", alone", false, false), (", alone, dependent", false, true), (", alone, 2 MiB pages", true, false)];

/// Nanoseconds for one call, a figure for each part of the queries.
fn time(queries: &[usize], pace: Pace, mut call: impl FnMut(usize) -> usize) -> Vec<f64> {
    let mut times = Vec::new();
    let none = black_box(0);
    for part in queries.chunks(pace.part) {
        let began = Instant::now();
        let sum = if pace.waits {
            part.iter().fold(0, |sum: usize, query| sum.wrapping_add(call(*query + (sum & none))))
        } else {
            part.iter().fold(0, |sum: usize, query| sum.wrapping_add(call(*query)))
        };
        let took = began.elapsed().as_nanos() as f64;
        black_box(sum);
        times.push(took / part.len() as f64);
    }
    times
}

const PACE: Pace = Pace { part: 1000, waits: false };

/// The two answers of a waiting call as one number, so that both are used.
fn sum((least, most): (usize, usize)) -> usize {
    least + most
}

fn found((earliest, latest): (usize, Option<usize>)) -> usize {
    earliest + latest.unwrap_or_default()
}

/// Strip, row and the rest over the same bits; the pair has a second strip beside it, and `waiting` its waiting strip.
struct Bench {
    bits: usize,
    share: usize,
    words: Vec<u64>,
    ones: usize,
    record: Record,
    row: Row,
    pair: Pair,
    waiting: Waiting,
    sdsl: Option<Sdsl>,
    roaring: Option<Roaring>,
    random: Random,
    waits: bool,
}

impl Bench {
    fn new(power: u32, share: usize, huge: bool, others: bool) -> Bench {
        let mut random = Random::new(1);
        let bits = 1 << power;
        let words: Vec<u64> = (0..bits / 64).map(|_| word(&mut random, share)).collect();
        let record = Record::new(&words, huge);
        let (sdsl, roaring) = if others { (Sdsl::new(&words), Roaring::new(&words)) } else { (None, None) };
        let (ones, row) = (record.rank(1, bits), Row::new(&words));
        let beside = |seed: u64, share: usize| {
            let mut random = Random::new(seed);
            words.iter().map(|_| word(&mut random, share)).collect()
        };
        let pair = Pair::new(words.clone(), beside(2, share));
        let waiting = Waiting::new(words.clone(), beside(3, 1));
        Bench { bits, share, words, ones, record, row, pair, waiting, sdsl, roaring, random, waits: false }
    }

    /// Random queries of a call. A find on two strips reads up to its k, so those of one figure take theirs from as
    /// many equal parts, and a waiting find takes one fixed k; the other calls on two strips go over the whole of both.
    fn queries(&mut self, call: Call, count: usize) -> Vec<usize> {
        let (random, bits, last) = (&mut self.random, self.bits, self.pair.differing - 1);
        let Waiting { least, most, .. } = self.waiting;
        let mut below = |n: usize| (0..count).map(|_| random.below(n)).collect::<Vec<_>>();
        match call {
            Find(0) => below(bits - self.ones),
            Find(_) | RowFind => below(self.ones),
            Add => below(64).iter().map(|x| usize::from(*x < self.share)).collect(),
            Run => below(bits / 64).iter().map(|j| 64 * j).collect(),
            PairFind => {
                let parts = count.clamp(1, PARTS);
                below(last).iter().enumerate().map(|(j, k)| (last * (j % parts) + k) / parts).collect()
            }
            PairLast => vec![last; count],
            PairCount(_) | PairSpan | WaitingCount => vec![bits; count],
            WaitingFind => vec![least / 2; count],
            WaitingLast => vec![least - 1; count],
            WaitingOpen => vec![(least + most) / 2; count],
            _ => below(bits),
        }
    }

    /// How many calls in one measurement, and how many in a figure.
    fn amounts(&self, call: Call, column: Column) -> (usize, usize) {
        let near = 1 << 24;
        match (call, column) {
            (Next, Column::Scan) => (20_000, 1000),
            (_, Column::Scan | Column::Popcnt) => ((near / self.bits).clamp(2, 16), 1),
            (Run, Column::Roaring) => (100, 50),
            (_, Column::Roaring) => (1000, 250),
            (Run | Check | Freeze | Inspect, _) => ((near / self.bits).clamp(1, 16), 1),
            (PairFind, _) => (PARTS * (near / self.bits).clamp(3, 8), PARTS),
            (PairCount(_) | PairLast | PairSpan, _) => ((near / self.bits).clamp(4, 16), 1),
            (WaitingCount | WaitingFind | WaitingLast | WaitingOpen, _) => ((near / self.bits).clamp(4, 16), 1),
            _ => (20_000, 1000),
        }
    }

    /// One measurement: nanoseconds for one call, nothing where there is nothing to measure.
    fn measure(&mut self, call: Call, column: Column) -> Vec<f64> {
        let (count, part) = self.amounts(call, column);
        let (q, pace) = (self.queries(call, count), Pace { part, waits: self.waits });
        match column {
            Column::Library => self.library(call, &q, pace),
            Column::Hand | Column::Again => self.hand(call, &q, pace),
            Column::Passes if call == WaitingCount => time(&q, pace, |i| sum(self.waiting.passes(i))),
            Column::Checked => self.checked(call, &q, pace),
            Column::Scan => self.scan(call, &q, pace),
            Column::Popcnt => self.popcnt(call, &q, pace),
            Column::Sdsl => self.sdsl(call, &q, pace),
            Column::Roaring => self.roaring(call, &q, pace),
            Column::Memcpy if call == Freeze => time(&q, pace, |_| self.row.copy(&self.words)),
            Column::Passes | Column::Memcpy | Column::Ones | Column::Sliding | Column::Inspections => Vec::new(),
        }
    }

    /// Readies the record for so many calls; gives the next length at each step.
    fn prepare(&mut self, call: Call, count: usize) -> impl FnMut() -> usize {
        let mut length = self.bits - count;
        if call == Add {
            self.record.truncate(length);
        }
        move || {
            length += 1;
            length - 1
        }
    }

    /// Makes the record again what it was.
    fn restore(&mut self, call: Call) {
        if matches!(call, Turn | Add | Run) {
            self.record.restore(&self.words);
        }
    }

    fn library(&mut self, call: Call, q: &[usize], pace: Pace) -> Vec<f64> {
        let mut next = self.prepare(call, q.len());
        let (r, row, pair, waiting) = (&mut self.record, &mut self.row, &self.pair, &self.waiting);
        let times = match call {
            Count => time(q, pace, |i| r.rank(1, i)),
            Find(v) => time(q, pace, |k| r.select(v, k)),
            Turn => time(q, pace, |i| r.flip(i)),
            Flip => Vec::new(),
            Add => time(q, pace, |v| r.push(next(), v as u64)),
            Next => time(q, pace, |i| r.successor(1, i)),
            Run => time(q, pace, |a| r.fill(a, a + 64, 1)),
            Check => time(q, pace, |_| r.verify()),
            Freeze => time(q, pace, |_| row.freeze(&self.words)),
            Inspect => time(q, pace, |_| row.inspect()),
            RowCount => time(q, pace, |i| row.rank(i)),
            RowFind => time(q, pace, |k| row.select(k)),
            PairCount(rule) => time(q, pace, |i| pair.count(rule, i)),
            PairFind | PairLast => time(q, pace, |k| pair.find(k)),
            PairSpan => time(q, pace, |b| pair.span(0, b) as usize),
            WaitingCount => time(q, pace, |i| sum(waiting.count(i))),
            WaitingFind | WaitingLast | WaitingOpen => time(q, pace, |k| found(waiting.find(k))),
        };
        self.restore(call);
        times
    }

    fn hand(&mut self, call: Call, q: &[usize], pace: Pace) -> Vec<f64> {
        let mut next = self.prepare(call, q.len());
        let (r, row, pair, waiting) = (&mut self.record, &mut self.row, &self.pair, &self.waiting);
        let times = match call {
            Count => time(q, pace, |i| r.tree_rank(i)),
            Find(v) => time(q, pace, |k| r.tree_select(v, k)),
            Turn => time(q, pace, |i| r.tree_flip(i)),
            Flip => Vec::new(),
            Add => time(q, pace, |v| r.tree_push(next(), v as u64)),
            Next => time(q, pace, |i| r.tree_successor(1, i)),
            Run => time(q, pace, |a| r.tree_fill(a, a + 64, 1)),
            Check => time(q, pace, |_| r.tree_verify()),
            Freeze => time(q, pace, |_| row.tree_freeze(&self.words)),
            Inspect => time(q, pace, |_| row.tree_inspect()),
            RowCount => time(q, pace, |i| row.tree_rank(i)),
            RowFind => time(q, pace, |k| row.tree_select(k)),
            PairCount(rule) => time(q, pace, |i| pair.hand_count(rule, i)),
            PairFind | PairLast => time(q, pace, |k| pair.hand_find(k)),
            PairSpan => time(q, pace, |b| pair.hand_span(0, b) as usize),
            WaitingCount => time(q, pace, |i| sum(waiting.hand_count(i))),
            WaitingFind | WaitingLast | WaitingOpen => time(q, pace, |k| found(waiting.hand_find(k))),
        };
        self.restore(call);
        times
    }

    /// The calls that are also there by hand with the library's checks.
    fn checked(&mut self, call: Call, q: &[usize], pace: Pace) -> Vec<f64> {
        if !matches!(call, Count | Find(_) | Turn | Add) {
            return Vec::new();
        }
        let mut next = self.prepare(call, q.len());
        let r = &mut self.record;
        let times = match call {
            Count => time(q, pace, |i| r.checked_rank(1, i)),
            Find(v) => time(q, pace, |k| r.checked_select(v, k)),
            Turn => time(q, pace, |i| r.checked_flip(i)),
            _ => time(q, pace, |v| r.checked_push(next(), v as u64)),
        };
        self.restore(call);
        times
    }

    fn scan(&mut self, call: Call, q: &[usize], pace: Pace) -> Vec<f64> {
        let words = self.record.words();
        match call {
            Count => time(q, pace, |i| scan::rank(words, i)),
            Find(v) => time(q, pace, |k| scan::select(words, v, k)),
            Next => time(q, pace, |i| scan::successor(words, 1, i)),
            RowCount => time(q, pace, |i| scan::rank_in_bytes(self.row.bytes(), i)),
            _ => Vec::new(),
        }
    }

    fn popcnt(&mut self, call: Call, q: &[usize], pace: Pace) -> Vec<f64> {
        let words = self.record.words();
        // SAFETY: the machine has the instruction.
        match call {
            _ if !std::is_x86_feature_detected!("popcnt") => Vec::new(),
            Count => time(q, pace, |i| unsafe { scan::rank_popcnt(words, i) }),
            Find(v) => time(q, pace, |k| unsafe { scan::select_popcnt(words, v, k) }),
            _ => Vec::new(),
        }
    }

    fn sdsl(&mut self, call: Call, q: &[usize], pace: Pace) -> Vec<f64> {
        let Some(s) = &self.sdsl else { return Vec::new() };
        match call {
            Count => time(q, pace, |i| s.rank(i)),
            Find(v) => time(q, pace, |k| s.select(v, k)),
            _ => Vec::new(),
        }
    }

    fn roaring(&mut self, call: Call, q: &[usize], pace: Pace) -> Vec<f64> {
        let Some(b) = &mut self.roaring else { return Vec::new() };
        let mut length = self.bits - q.len();
        if call == Add {
            b.fill(length, self.bits, 0);
        }
        let times = match call {
            Count => time(q, pace, |i| b.rank(i)),
            Find(1) => time(q, pace, |k| b.select(k.min(self.ones - 1))),
            Turn => time(q, pace, |i| b.turn(i)),
            Flip => time(q, pace, |i| b.flip(i)),
            Add => time(q, pace, |v| {
                length += 1;
                b.push(length - 1, v as u64)
            }),
            Next => time(q, pace, |i| b.successor(i)),
            Run => time(q, pace, |a| b.fill(a, a + 64, 1)),
            _ => Vec::new(),
        };
        let put = |b: &mut Roaring, a: usize| {
            (a..a + 64).for_each(|p| {
                if self.words[p / 64] >> (p % 64) & 1 == 0 {
                    b.fill(p, p + 1, 0);
                }
            })
        };
        match call {
            Turn | Flip => q.iter().rev().for_each(|i| {
                b.turn(*i);
            }),
            Run => q.iter().for_each(|a| put(b, *a)),
            _ => {}
        }
        times
    }

    /// Asserts that all agree, so that like is compared with like.
    fn compare(&mut self) {
        for call in [Count, Find(1), Find(0), Turn] {
            for q in self.queries(call, 300) {
                let (r, s, b) = (&mut self.record, &self.sdsl, &self.roaring);
                let answers = match call {
                    Count => {
                        assert_eq!(self.row.rank(q), r.rank(1, q));
                        assert_eq!(self.row.tree_rank(q), r.rank(1, q));
                        assert_eq!(r.checked_rank(1, q), r.rank(1, q));
                        assert_eq!(r.successor(1, q), r.tree_successor(1, q));
                        assert_eq!(r.successor(1, q), scan::successor(r.words(), 1, q));
                        let others = (s.as_ref().map(|s| s.rank(q)), b.as_ref().map(|b| b.rank(q)));
                        (r.rank(1, q), r.tree_rank(q), others.0, others.1)
                    }
                    Find(v) => {
                        assert!(v == 0 || self.row.select(q) == r.select(1, q));
                        assert_eq!(r.checked_select(v, q), r.select(v, q));
                        assert!(v == 0 || self.row.tree_select(q) == r.select(1, q));
                        let others = (s.as_ref().map(|s| s.select(v, q)), b.as_ref().map(|b| b.select(q)));
                        (r.select(v, q), r.tree_select(v, q), others.0, others.1.filter(|_| v == 1))
                    }
                    _ => (r.flip(q), r.tree_flip(q), Some(r.checked_flip(q)), Some(r.flip(q))),
                };
                assert_eq!(answers.0, answers.1);
                assert!(answers.2.is_none_or(|x| x == answers.0) && answers.3.is_none_or(|x| x == answers.0));
            }
        }
        for length in self.queries(Count, 100) {
            for v in [0, 1] {
                let r = &mut self.record;
                let mut pushed = |push: fn(&mut Record, usize, u64) -> usize| {
                    r.truncate(length);
                    let number = push(r, length, v);
                    (number, r.rank(1, length + 1), r.words()[length / 64])
                };
                let answer = pushed(Record::push);
                assert!(answer == pushed(Record::tree_push) && answer == pushed(Record::checked_push));
            }
        }
        self.record.restore(&self.words);
        let (r, words) = (&self.record, self.record.words());
        for q in [0, 1, self.bits / 3, self.bits - 1] {
            assert_eq!(scan::rank(words, q), r.rank(1, q));
            assert_eq!(scan::rank_in_bytes(self.row.bytes(), q), r.rank(1, q));
            assert_eq!(scan::select(words, 1, q % self.ones), r.select(1, q % self.ones));
        }
        assert!(r.tree_verify() == 1 && r.verify() == self.ones);
        assert!(self.row.inspect() == 1 && self.row.tree_inspect() == 1);
    }

    /// The same for the calls on two strips, with a scan of what the rules make of them.
    fn compare_pairs(&mut self) {
        let mut places = self.queries(Count, 6);
        places.extend([0, 1, 63, 64, 65, self.bits - 1, self.bits]);
        let pair = &self.pair;
        for rule in [Rule::Both, Rule::Either, Rule::OnlyFirst, Rule::Differ] {
            let joined = pair.joined(rule);
            for i in &places {
                assert_eq!(pair.count(rule, *i), scan::rank(&joined, *i));
                assert_eq!(pair.hand_count(rule, *i), scan::rank(&joined, *i));
            }
        }
        let joined = pair.joined(Rule::Differ);
        let last = pair.differing - 1;
        for k in places.iter().map(|i| i % last).chain([last]) {
            assert_eq!(pair.find(k), scan::select(&joined, 1, k));
            assert_eq!(pair.hand_find(k), scan::select(&joined, 1, k));
        }
        let ones = pair.strips().map(|words| places.iter().map(|i| scan::rank(&words, *i) as i64).collect::<Vec<_>>());
        for (x, a) in places.iter().enumerate() {
            for (y, b) in places.iter().enumerate().filter(|(_, b)| a <= b) {
                let less = ones[0][y] - ones[0][x] - (ones[1][y] - ones[1][x]);
                assert!(pair.span(*a, *b) == less && pair.hand_span(*a, *b) == less);
            }
        }
    }

    /// The same for a strip and its waiting strip, with scans of the two outcomes between which all others lie.
    fn compare_waiting(&mut self) {
        let mut places = self.queries(Count, 6);
        places.extend([0, 1, 63, 64, 65, self.bits - 1, self.bits]);
        let Waiting { least, most, .. } = self.waiting;
        let (waiting, [fewest, all]) = (&self.waiting, self.waiting.outcomes());
        for i in &places {
            let answer = (scan::rank(&fewest, *i), scan::rank(&all, *i));
            assert!(waiting.count(*i) == answer && waiting.hand_count(*i) == answer && waiting.passes(*i) == answer);
        }
        let ends = [least / 2, least - 1, least, (least + most) / 2, most - 1];
        for k in places.iter().map(|i| i % most).chain(ends) {
            let answer = (scan::select(&all, 1, k), (k < least).then(|| scan::select(&fewest, 1, k)));
            assert!(waiting.find(k) == answer && waiting.hand_find(k) == answer);
        }
    }

    /// Rounds of these calls and columns, printed with a note.
    fn run(&mut self, calls: &[(Call, &str)], columns: &[(Column, &str)], note: &str, rounds: usize) {
        let at = format!("{}\t{}/64", self.bits.trailing_zeros(), self.share);
        run(&at, calls, columns, note, rounds, |call, column| self.measure(call, column));
    }

    /// The calls on two strips.
    fn two_strips(&mut self, rounds: usize) {
        self.compare_pairs();
        self.run(&PAIRS, &COLUMNS[..3], "", rounds);
        self.compare_waiting();
        self.run(&WAITING, &COLUMNS[..4], "", rounds);
    }
}

/// Rounds of these calls and columns; prints the figures under their place, the calls' names and a note.
fn run<C: Copy>(
    at: &str,
    calls: &[(C, &str)],
    columns: &[(Column, &str)],
    note: &str,
    rounds: usize,
    mut measure: impl FnMut(C, Column) -> Vec<f64>,
) {
    let mut figures = vec![vec![Vec::new(); columns.len()]; calls.len()];
    for number in 0..rounds {
        for (x, (call, _)) in calls.iter().enumerate() {
            // now the one goes first, now the other; each after one of its own that does not count
            for y in 0..columns.len() {
                let y = if number % 2 == 0 { y } else { columns.len() - 1 - y };
                measure(*call, columns[y].0);
                figures[x][y].push(measure(*call, columns[y].0));
            }
        }
    }
    for (x, (_, name)) in calls.iter().enumerate() {
        for (y, (_, column)) in columns.iter().enumerate() {
            if let Some([a, b, c]) = quartiles(figures[x][y].concat()) {
                println!("time\t{at}\t{name}{note}\t{column}\t{a:.2}\t{b:.2}\t{c:.2}");
            }
        }
        for (over, under, pair) in RATIOS {
            if let Some([a, b, c]) = quartiles(ratios(columns, &figures[x], over, under)) {
                println!("ratio\t{at}\t{name}{note}\t{pair}\t{a:.3}\t{b:.3}\t{c:.3}");
            }
        }
    }
}

/// The rounds' ratios: the median of one column over the sum of those of others. None where one was not measured.
fn ratios(columns: &[(Column, &str)], figures: &[Vec<Vec<f64>>], over: Column, under: &[Column]) -> Vec<f64> {
    let medians = |column: Column| {
        let y = columns.iter().position(|x| x.0 == column)?;
        figures[y].iter().map(|f| Some(quartiles(f.clone())?[1])).collect::<Option<Vec<f64>>>()
    };
    let under: Option<Vec<_>> = under.iter().map(|column| medians(*column)).collect();
    let (Some(over), Some(under)) = (medians(over), under) else { return Vec::new() };
    let sum = |number: usize| under.iter().map(|x| x[number]).sum::<f64>();
    over.iter().enumerate().map(|(number, x)| x / sum(number)).collect()
}

/// The bytes of this process that lie in pages of 2 MiB.
fn huge_bytes() -> usize {
    let text = std::fs::read_to_string("/proc/self/smaps_rollup").unwrap_or_default();
    let line = text.lines().find(|line| line.starts_with("AnonHugePages:"));
    line.and_then(|line| line.split_whitespace().nth(1)?.parse::<usize>().ok()).map_or(0, |kib| 1024 * kib)
}

/// Select in a word, out of line on both sides.
fn word_select(rounds: usize) {
    let mut random = Random::new(1);
    let mut figures = [Vec::new(), Vec::new()];
    let mut query = || {
        let x = random.number().max(1);
        (x, random.below(x.count_ones() as usize))
    };
    let queries: Vec<(u64, usize)> = (0..1 << 14).map(|_| query()).collect();
    let places: Vec<usize> = (0..queries.len()).collect();
    // SAFETY: they take any word, and k is below its ones.
    for _ in 0..rounds {
        for (y, figures) in figures.iter_mut().enumerate() {
            figures.extend(time(&places, PACE, |j| unsafe {
                let (x, k) = queries[j];
                if y == 0 {
                    ffi::strip_select_in_word(x, k as u64) as usize
                } else {
                    tree_select_in_word(x, k)
                }
            }));
        }
    }
    for (figures, column) in figures.into_iter().zip(["library", "C++"]) {
        let [a, b, c] = quartiles(figures).unwrap();
        println!("time\t6\t32/64\tword select\t{column}\t{a:.2}\t{b:.2}\t{c:.2}");
    }
}

/// One measurement of a search for a burst, or of a count in its place.
fn measure_burst(burst: &Burst, column: Column) -> Vec<f64> {
    let quick = column == Column::Ones || column != Column::Sliding && matches!(burst.case.words, Words::Random(_));
    let (least, most) = if quick { (4, 16) } else { (1, 4) };
    let count = ((1 << 24) / burst.bits).clamp(least, most);
    let (q, pace) = (vec![burst.case.m; count], Pace { part: 1, waits: false });
    match column {
        Column::Library => time(&q, pace, |m| burst.library(m)),
        Column::Hand | Column::Again => time(&q, pace, |m| burst.hand(m)),
        Column::Ones => time(&vec![burst.bits; count], pace, |i| burst.ones(i)),
        Column::Sliding => time(&q, pace, |m| burst.sliding(m)),
        _ => Vec::new(),
    }
}

/// The searches for a burst, and at 2^24 all strips that make them slow.
fn bursts(power: u32, rounds: usize) {
    for case in CASES.into_iter().take(if power == 24 { CASES.len() } else { 3 }) {
        let burst = Burst::new(power, case);
        burst.compare();
        let at = format!("{power}\t{}", case.share);
        run(&at, &[((), case.name)], &BURSTS, "", rounds, |(), column| measure_burst(&burst, column));
    }
}

/// One measurement of a merge, or of what it is held against: four figures, of many calls each where images are short.
fn measure_merge(merge: &mut Merge, column: Column) -> Vec<f64> {
    let part = ((1 << 20) / merge.bytes().0).clamp(1, 100);
    let (q, pace) = (vec![0; 4 * part], Pace { part, waits: false });
    match column {
        Column::Library => time(&q, pace, |_| merge.library()),
        Column::Inspections => time(&q, pace, |_| merge.inspections()),
        Column::Memcpy => time(&q, pace, |_| merge.copy()),
        _ => Vec::new(),
    }
}

/// The merges of two images of rows of 2^power bits.
fn merges(power: u32, rounds: usize) {
    for case in merge::CASES {
        let (mut merge, at) = (Merge::new(power, case), format!("{power}\t32/64"));
        merge.compare(case);
        let (image, result) = merge.bytes();
        for (what, bytes) in [("an image", image), ("the result", result)] {
            println!("bytes\t{at}\t{}, {what}\t{bytes}", case.name);
        }
        run(&at, &[((), case.name)], &MERGES, "", rounds, |(), column| measure_merge(&mut merge, column));
    }
}

/// As many calls of each kind, for a counter of instructions; those that go over words a hundredth of them.
fn calls(power: u32, count: usize) {
    let mut bench = Bench::new(power, 32, false, false);
    let others = [Find(0), PairLast, WaitingLast, WaitingOpen];
    for (call, _) in CALLS.into_iter().chain(PAIRS).chain(WAITING).filter(|(call, _)| !others.contains(call)) {
        let single = [Count, Find(1), Turn, Flip, Add, Next, RowCount, RowFind].contains(&call);
        let q = bench.queries(call, if single { count } else { count / 100 });
        bench.library(call, &q, PACE);
        bench.hand(call, &q, PACE);
        bench.checked(call, &q, PACE);
    }
    let burst = Burst::new(power, CASES[0]);
    let q = vec![burst.case.m; count / 100];
    time(&q, PACE, |m| burst.library(m));
    time(&q, PACE, |m| burst.hand(m));
}

/// The calls on one strip and its row, those on two strips, and count, find and turn alone.
fn strips(power: u32, rounds: usize) {
    for share in [1, 32, 63] {
        let mut bench = Bench::new(power, share, false, true);
        bench.compare();
        let (sdsl, roaring) = (bench.sdsl.as_ref().map(Sdsl::bytes), bench.roaring.as_ref().map(Roaring::bytes));
        let kinds = [("sdsl rank", sdsl.map(|s| s.0)), ("sdsl select", sdsl.map(|s| s.1)), ("CRoaring", roaring)];
        for (what, bytes) in kinds {
            if let Some(bytes) = bytes {
                println!("bytes\t{power}\t{share}/64\t{what}\t{bytes}");
            }
        }
        bench.run(&CALLS, &COLUMNS, "", rounds);
        if share == 32 {
            bench.two_strips(rounds);
        }
    }
    let calls = [(Count, "count"), (Find(1), "find 1"), (Turn, "turn")];
    for (note, huge, waits) in KINDS {
        let mut bench = Bench::new(power, 32, huge, false);
        bench.waits = waits;
        bench.run(&calls, &COLUMNS[..3], note, rounds);
        println!("bytes\t{power}\t32/64\tin 2 MiB pages{note}\t{}", huge_bytes());
    }
}

fn main() {
    let mut arguments = std::env::args().skip(1).peekable();
    let mode = arguments.next_if(|x| ["calls", "pairs", "bursts", "merge"].contains(&x.as_str())).unwrap_or_default();
    let numbers: Vec<usize> = arguments.map(|x| x.parse().expect("a number")).collect();
    if mode == "calls" {
        return calls(numbers[0] as u32, numbers[1]);
    }
    let rounds = numbers.first().copied().unwrap_or(20);
    let mut powers: Vec<u32> = numbers.iter().skip(1).map(|x| *x as u32).collect();
    if powers.is_empty() {
        powers = if mode == "merge" { vec![6, 18, 23] } else { vec![20, 24, 27] };
    }
    for power in powers {
        match mode.as_str() {
            "pairs" => Bench::new(power, 32, false, false).two_strips(rounds),
            "bursts" => bursts(power, rounds),
            "merge" => merges(power, rounds),
            _ => strips(power, rounds),
        }
    }
    if mode.is_empty() {
        word_select(rounds);
    }
}
