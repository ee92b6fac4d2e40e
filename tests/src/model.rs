//! The calls on a strip, on two strips, on a strip with strokes still waiting and on a row, by the documents' definitions: a
//! strip is a list of bits, every search is a loop over positions, and every counter is summed anew from the children that it
//! gives. Refusals are judged in the order of the lines.
use crate::borders::{LARGEST, WIDEST};
use crate::call::{Call, Opcode};
use crate::refusal::{Answer, Bounded, Bounds, Refusal, Signed, Values};
use crate::Handle;
use std::collections::BTreeSet;
use std::ops::Range;
use Refusal::*;

// ---- words

/// The words that hold these bits, 64 to a word; bit 0 of a word has weight 1.
pub fn words_of(bits: &[bool]) -> Vec<u64> {
    let mut words = Vec::new();
    for part in bits.chunks(64) {
        let mut word = 0;
        for bit in part.iter().rev() {
            word = word * 2 + u64::from(*bit);
        }
        words.push(word);
    }
    words
}

/// The bits of words, 64 of each.
pub fn bits_of(words: &[u64]) -> Vec<bool> {
    let mut bits = Vec::with_capacity(64 * words.len());
    for word in words {
        let mut rest = *word;
        for _ in 0..64 {
            bits.push(rest % 2 == 1);
            rest /= 2;
        }
    }
    bits
}

/// The bits of a text of zeros and ones.
pub fn text(bits: &str) -> Vec<bool> {
    bits.chars().map(|c| c == '1').collect()
}

/// The number of words of a capacity.
pub fn word_count(capacity: u64) -> usize {
    capacity as usize / 64
}

// ---- the refusals of all strip calls

/// Whether a capacity is a multiple of 512 from 512 to the largest.
fn allowed(capacity: u64) -> bool {
    capacity.is_multiple_of(512) && (512..=LARGEST).contains(&capacity)
}

/// 1, 2, and 3 where counters are taken.
pub fn check(h: Handle, words: usize, counters: Option<usize>) -> Result<(), Refusal> {
    BadHandle.when(!allowed(h.capacity) || h.length > h.capacity || h.total > h.length)?;
    WordCount.when(words != word_count(h.capacity))?;
    CounterCount.when(counters.is_some_and(|number| number != counter_count(h.capacity)))
}

// ---- the readings, over a list of bits

/// 8.
fn check_value(v: u64) -> Result<bool, Refusal> {
    BadValue.when(v > 1)?;
    Ok(v == 1)
}

/// The length of a list of bits.
pub fn length(bits: &[bool]) -> u64 {
    bits.len() as u64
}

/// A position, or 6.
fn found(position: Option<usize>) -> Answer {
    position.map(|p| p as u64).ok_or(NotFound)
}

/// How many of some bits equal v.
pub fn number_of(bits: &[bool], v: bool) -> u64 {
    bits.iter().filter(|b| **b == v).count() as u64
}

/// look(i): 4.
pub fn get(bits: &[bool], i: u64) -> Answer {
    Position.when(i >= length(bits))?;
    Ok(u64::from(bits[i as usize]))
}

/// count(v, i): 8, 4; how many of the first i bits equal v.
pub fn rank(bits: &[bool], v: u64, i: u64) -> Answer {
    let v = check_value(v)?;
    Position.when(i > length(bits))?;
    Ok(number_of(&bits[..i as usize], v))
}

/// find(v, k): 8, 6; the position that holds v and has k of v before it. Parts that have too few of v are passed over.
pub fn select(bits: &[bool], v: u64, k: u64) -> Answer {
    let v = check_value(v)?;
    let (mut start, mut rest) = (0, k);
    for part in bits.chunks(1000) {
        let places = number_of(part, v);
        if rest < places {
            return found((0..part.len()).filter(|p| part[*p] == v).nth(rest as usize).map(|p| start + p));
        }
        rest -= places;
        start += part.len();
    }
    found(None)
}

/// next(v, i): 8, 4, 6; the smallest position at or past i that holds v.
pub fn successor(bits: &[bool], v: u64, i: u64) -> Answer {
    let v = check_value(v)?;
    Position.when(i > length(bits))?;
    found((i as usize..bits.len()).find(|p| bits[*p] == v))
}

/// prior(v, i): 8, 4, 6; the largest position below i that holds v.
pub fn predecessor(bits: &[bool], v: u64, i: u64) -> Answer {
    let v = check_value(v)?;
    Position.when(i > length(bits))?;
    found((0..i as usize).rev().find(|p| bits[*p] == v))
}

/// A row reading on its row, after the refusals 10, 11 and 14.
pub fn on_row(bits: &[bool], call: Call) -> Values {
    let told = match call.opcode() {
        Opcode::RowRank => rank(bits, call.y, call.z),
        Opcode::RowSelect => select(bits, call.y, call.z),
        Opcode::RowGet => get(bits, call.y),
        _ => unreachable!("{call:?} is not on a row"),
    };
    told.map(|value| (value, 0))
}

// ---- the windows of a strip, by the counts of its ones: count(1, i) for each i from 0 to the length

/// The counts of the ones of a list of bits.
pub fn counts_of(bits: &[bool]) -> Vec<u32> {
    let mut counts = vec![0];
    for bit in bits {
        counts.push(counts[counts.len() - 1] + u32::from(*bit));
    }
    counts
}

/// The ones of each window of w strokes, wholly inside the strip, by its start.
fn windows(counts: &[u32], w: u64) -> impl Iterator<Item = u64> + '_ {
    let at_ends = counts.get(w as usize..).unwrap_or(&[]);
    at_ends.iter().zip(counts).map(|(at_end, at_start)| u64::from(at_end - at_start))
}

/// The most ones that a window of w strokes holds, where there is one.
pub fn fullest(counts: &[u32], w: u64) -> Option<u64> {
    windows(counts, w).max()
}

/// Whether the window of w strokes at s lies wholly inside the strip and holds at least m ones.
pub fn qualifies(counts: &[u32], w: u64, m: u64, s: u64) -> bool {
    windows(counts, w).nth(s as usize).is_some_and(|ones| ones >= m)
}

/// burst(w, m): 17, 6; else any start that qualifies is right.
pub fn burst(counts: &[u32], w: u64, m: u64) -> Result<(), Refusal> {
    BadWindow.when(!(1..=WIDEST).contains(&w) || !(1..=w).contains(&m))?;
    NotFound.when(!windows(counts, w).any(|ones| ones >= m))
}

// ---- two strips, each a list of bits, of one length

/// 1 and 2 of the first strip, 1 and 2 of the second, 16. Of each strip the handle and the number of words are given.
pub fn check_pair(first: (Handle, usize), second: (Handle, usize)) -> Result<(), Refusal> {
    check(first.0, first.1, None)?;
    check(second.0, second.1, None)?;
    Unequal.when(first.0.capacity != second.0.capacity || first.0.length != second.0.length)
}

/// 4; how many strokes before i the strips judge so.
fn strokes_before(i: u64, first: &[bool], second: &[bool], judged: impl Fn(bool, bool) -> bool) -> Answer {
    Position.when(i > length(first))?;
    let strokes = first[..i as usize].iter().zip(&second[..i as usize]);
    Ok(strokes.filter(|(x, y)| judged(**x, **y)).count() as u64)
}

/// The strokes before i that both mark: 4.
pub fn both(first: &[bool], second: &[bool], i: u64) -> Answer {
    strokes_before(i, first, second, |x, y| x && y)
}

/// The strokes before i that either marks: 4.
pub fn either(first: &[bool], second: &[bool], i: u64) -> Answer {
    strokes_before(i, first, second, |x, y| x || y)
}

/// The strokes before i that only the first marks: 4.
pub fn only_first(first: &[bool], second: &[bool], i: u64) -> Answer {
    strokes_before(i, first, second, |x, y| x && !y)
}

/// The strokes before i that they judge differently: 4.
pub fn differ(first: &[bool], second: &[bool], i: u64) -> Answer {
    strokes_before(i, first, second, |x, y| x != y)
}

/// The k-th stroke judged differently, k from 0: 6.
pub fn find_differing(first: &[bool], second: &[bool], k: u64) -> Answer {
    found((0..first.len()).filter(|p| first[*p] != second[*p]).nth(k as usize))
}

/// The ones of the first in positions a to b - 1 less those of the second: 5, 4.
pub fn span_difference(first: &[bool], second: &[bool], a: u64, b: u64) -> Signed {
    Span.when(a > b)?;
    Position.when(b > length(first))?;
    let ones = |bits: &[bool]| number_of(&bits[a as usize..b as usize], true) as i64;
    Ok(ones(first) - ones(second))
}

// ---- a strip and its waiting strip, each a list of bits, of one length

/// Every outcome: the strips of the same length that agree with the strip wherever there is no mark.
pub fn outcomes(strip: &[bool], waiting: &[bool]) -> Vec<Vec<bool>> {
    let mut list = vec![strip.to_vec()];
    for p in (0..strip.len()).filter(|p| waiting[*p]) {
        let with = |outcome: &Vec<bool>, v: bool| [&outcome[..p], &[v], &outcome[p + 1..]].concat();
        list = list.iter().flat_map(|outcome| [with(outcome, false), with(outcome, true)]).collect();
    }
    list
}

/// Waiting count by all outcomes: 4; the least and the most of count(1, i). Asserts that each number between is reached.
pub fn count_of_outcomes(outcomes: &[Vec<bool>], i: u64) -> Bounded {
    let counts: BTreeSet<u64> = outcomes.iter().map(|outcome| rank(outcome, 1, i)).collect::<Result<_, _>>()?;
    let (least, most) = (counts.first().unwrap(), counts.last().unwrap());
    assert!(
        counts.iter().copied().eq(*least..=*most),
        "of the counts from {least} to {most} only {counts:?} are reached"
    );
    Ok(Bounds { low: *least, high: Some(*most) })
}

/// Waiting find by all outcomes: 6 where none has a k-th one; the earliest and, where each has one, the latest of find(1, k).
pub fn find_of_outcomes(outcomes: &[Vec<bool>], k: u64) -> Bounded {
    let places: Vec<Answer> = outcomes.iter().map(|outcome| select(outcome, 1, k)).collect();
    let found: BTreeSet<u64> = places.iter().flatten().copied().collect();
    let earliest = *found.first().ok_or(NotFound)?;
    let latest = if places.iter().all(Answer::is_ok) { found.last().copied() } else { None };
    Ok(Bounds { low: earliest, high: latest })
}

/// A stroke as a cell: its bit, or 2 where it waits, whatever the bit beneath the mark.
fn cells<'a>(strip: &'a [bool], waiting: &'a [bool]) -> impl Iterator<Item = u8> + 'a {
    strip.iter().zip(waiting).map(|(bit, mark)| if *mark { 2 } else { u8::from(*bit) })
}

/// How many misfires there are at least and at most once a cell is passed.
fn pass((least, most): (u64, u64), cell: u8) -> (u64, u64) {
    (least + u64::from(cell == 1), most + u64::from(cell != 0))
}

/// Waiting count by a walk over the cells: 4.
pub fn waiting_count(strip: &[bool], waiting: &[bool], i: u64) -> Bounded {
    Position.when(i > length(strip))?;
    let (least, most) = cells(strip, waiting).take(i as usize).fold((0, 0), pass);
    Ok(Bounds { low: least, high: Some(most) })
}

/// Waiting find by a walk over the cells: 6. A cell can be the k-th misfire where k misfires can be before it and it can be 1,
/// so none can once there are more than k at least.
pub fn waiting_find(strip: &[bool], waiting: &[bool], k: u64) -> Bounded {
    let (mut earliest, mut latest) = (None, None);
    let (mut least, mut most) = (0, 0);
    for (p, cell) in (0..).zip(cells(strip, waiting)) {
        if (least..=most).contains(&k) && cell != 0 {
            earliest = earliest.or(Some(p));
            latest = Some(p);
        }
        (least, most) = pass((least, most), cell);
        if least > k {
            break;
        }
    }
    Ok(Bounds { low: earliest.ok_or(NotFound)?, high: latest.filter(|_| least > k) })
}

// ---- the counters

/// A level of the tree: its number, how many nodes it has, and where the counters of the first stand.
struct Level {
    t: u32,
    nodes: usize,
    start: usize,
}

/// The number of levels over a capacity.
fn height(capacity: u64) -> u32 {
    (1..=3).find(|h| 64u64.pow(*h) >= capacity / 512).unwrap()
}

/// The levels over a capacity, root first.
fn levels(capacity: u64) -> Vec<Level> {
    let blocks = capacity as usize / 512;
    let mut start = 0;
    let mut list = Vec::new();
    for t in (1..=height(capacity)).rev() {
        let nodes = blocks.div_ceil(64usize.pow(t));
        list.push(Level { t, nodes, start });
        start += 72 * nodes;
    }
    list
}

/// The number of counters: the node total times 72.
pub fn counter_count(capacity: u64) -> usize {
    levels(capacity).iter().map(|level| 72 * level.nodes).sum()
}

/// The number of counters that a capacity needs: 1.
pub fn counters_needed(capacity: u64) -> Answer {
    BadHandle.when(!allowed(capacity))?;
    Ok(counter_count(capacity) as u64)
}

/// The bits of a child at level t: a block, or a node of the level below.
fn child_bits(t: u32) -> usize {
    512 * 64usize.pow(t - 1)
}

/// The children of a node whose ones counter i gives: summary i, or key i - 8.
fn children(i: usize) -> Range<usize> {
    if i < 8 {
        0..8 * i
    } else {
        let c = i - 8;
        8 * (c / 8)..c + 1
    }
}

/// Every counter as defined for these bits; bits and children that are not there count 0.
pub fn counters_of(capacity: u64, bits: &[bool]) -> Vec<u32> {
    let mut counters = Vec::new();
    for level in levels(capacity) {
        let ones: Vec<u32> =
            bits.chunks(child_bits(level.t)).map(|child| child.iter().map(|b| u32::from(*b)).sum()).collect();
        for node in 0..level.nodes {
            for i in 0..72 {
                counters.push(children(i).map(|c| ones.get(64 * node + c).copied().unwrap_or(0)).sum());
            }
        }
    }
    counters
}

/// Where the counters stand that count stroke p: it lies in one of the children whose ones they give.
pub fn counting(capacity: u64, p: u64) -> Vec<usize> {
    let mut list = Vec::new();
    for level in levels(capacity) {
        let size = child_bits(level.t);
        for node in 0..level.nodes {
            for i in 0..72 {
                let given = children(i);
                if (size * (64 * node + given.start)..size * (64 * node + given.end)).contains(&(p as usize)) {
                    list.push(level.start + 72 * node + i);
                }
            }
        }
    }
    list
}

/// How many counters turning stroke p changes: 15 - (c mod 8) - (c div 8) at its child slot c, added over the levels.
fn changes(capacity: u64, p: u64) -> u64 {
    let slots = (1..=height(capacity)).map(|t| p / child_bits(t) as u64 % 64);
    slots.map(|c| 15 - c % 8 - c / 8).sum()
}

// ---- the strip

/// A strip, position 0 first, under a capacity: what a fitting record holds. The total is set from the bits, or moved by one
/// with the bit that changes.
#[derive(Clone)]
pub struct Strip {
    pub capacity: u64,
    bits: Vec<bool>,
    total: u64,
}

impl Strip {
    pub fn new(capacity: u64, bits: Vec<bool>) -> Strip {
        let total = number_of(&bits, true);
        Strip { capacity, bits, total }
    }

    pub fn handle(&self) -> Handle {
        Handle { capacity: self.capacity, length: length(&self.bits), total: self.total }
    }

    pub fn bits(&self) -> &[bool] {
        &self.bits
    }

    /// The ones, counted anew.
    pub fn ones(&self) -> u64 {
        number_of(&self.bits, true)
    }

    /// The words laid afresh: the bits at their positions, zeros past the length.
    pub fn words(&self) -> Vec<u64> {
        let mut words = words_of(&self.bits);
        words.resize(word_count(self.capacity), 0);
        words
    }

    /// The counters laid afresh.
    pub fn counters(&self) -> Vec<u32> {
        counters_of(self.capacity, &self.bits)
    }

    /// A call from lay to check, with so many words and counters lent.
    pub fn step(&mut self, lent: (usize, usize), call: Call) -> Values {
        let opcode = call.opcode();
        if opcode == Opcode::Create {
            return self.create(lent, call.x);
        }
        check(self.handle(), lent.0, opcode.takes_counters().then_some(lent.1))?;
        match opcode {
            Opcode::Push => self.push(call.x),
            Opcode::Flip => self.flip(call.x),
            Opcode::Fill => self.fill(call.x, call.y, call.z),
            Opcode::Truncate => self.truncate(call.x),
            _ => self.read(call).map(|value| (value, 0)),
        }
    }

    /// A reading, after 1 to 3.
    fn read(&self, call: Call) -> Answer {
        let (bits, x, y) = (&self.bits, call.x, call.y);
        match call.opcode() {
            Opcode::Get => get(bits, x),
            Opcode::Rank => rank(bits, x, y),
            Opcode::Select => select(bits, x, y),
            Opcode::Successor => successor(bits, x, y),
            Opcode::Predecessor => predecessor(bits, x, y),
            Opcode::Verify => Ok(self.ones()),
            _ => unreachable!("{call:?} is not on a strip"),
        }
    }

    /// lay(capacity): 1, 2, 3; the strip is empty.
    fn create(&mut self, lent: (usize, usize), capacity: u64) -> Values {
        check(Handle::new(capacity, 0), lent.0, Some(lent.1))?;
        *self = Strip::new(capacity, Vec::new());
        Ok((counter_count(capacity) as u64, 0))
    }

    /// add(v): 8, 7; appends v.
    fn push(&mut self, v: u64) -> Values {
        let bit = check_value(v)?;
        let p = length(&self.bits);
        Full.when(p == self.capacity)?;
        self.bits.push(bit);
        self.total += v;
        Ok((p, if bit { changes(self.capacity, p) } else { 0 }))
    }

    /// turn(i): 4; replaces one bit by its opposite.
    fn flip(&mut self, i: u64) -> Values {
        Position.when(i >= length(&self.bits))?;
        let bit = &mut self.bits[i as usize];
        *bit = !*bit;
        self.total = if *bit { self.total + 1 } else { self.total - 1 };
        Ok((u64::from(*bit), changes(self.capacity, i)))
    }

    /// run(a, b, v): 8, 5, 4; sets the positions a to b - 1 to v.
    fn fill(&mut self, a: u64, b: u64, v: u64) -> Values {
        let v = check_value(v)?;
        Span.when(a > b)?;
        Position.when(b > length(&self.bits))?;
        self.bits[a as usize..b as usize].fill(v);
        self.total = self.ones();
        Ok((self.total, 0))
    }

    /// cut(n): 4; keeps the first n.
    fn truncate(&mut self, n: u64) -> Values {
        Position.when(n > length(&self.bits))?;
        self.bits.truncate(n as usize);
        self.total = self.ones();
        Ok((self.total, 0))
    }
}
