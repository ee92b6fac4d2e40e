//! Calls, queries, comparisons, calls on waiting strokes and bursts drawn at random, their arguments around what they meet; the
//! labels of rows, positions on a row, and damage to an image.
use crate::borders::{beside, BAD_CAPACITIES, BAD_VALUES, FAR, LARGEST, SMALL, UNITS, WIDE, WIDEST};
use crate::burst::Burst;
use crate::call::{Call, Opcode, CALLS};
use crate::layout;
use crate::model::{self, length, number_of};
use crate::pair::Comparison;
use crate::paper::Frozen;
use crate::query::Query;
use crate::random::Random;
use crate::waiting::Waiting;

/// What a call meets: the handle's capacity, the strip, and the rows.
pub struct Scene<'a> {
    pub capacity: u64,
    pub strip: &'a [bool],
    pub rows: &'a [Frozen],
}

fn one_of<T: Copy>(random: &mut Random, list: &[T]) -> T {
    list[random.below(list.len())]
}

fn far(random: &mut Random) -> u64 {
    one_of(random, &FAR)
}

/// A number at most one off another.
fn near(random: &mut Random, number: u64) -> u64 {
    number.wrapping_add(random.number_below(3)).wrapping_sub(1)
}

/// 0 or 1, or seldom neither.
pub fn value(random: &mut Random) -> u64 {
    if random.below(16) == 0 {
        one_of(random, &BAD_VALUES)
    } else {
        random.number_below(2)
    }
}

/// A position on a list of bits under a capacity: inside it, beside its end, beside a multiple of a unit, or far away.
pub fn position(random: &mut Random, capacity: u64, length: u64) -> u64 {
    match random.below(16) {
        0 => far(random),
        1 => WIDE + random.number_below(length + 1),
        2 => near(random, capacity),
        3 | 4 => near(random, length),
        5..=7 => {
            let unit = one_of(random, &UNITS);
            let edge = unit * random.number_below(length / unit + 2);
            near(random, edge)
        }
        8 => random.number_below(3),
        _ => random.number_below(length + 1),
    }
}

/// A k for find(v, k) on bits: below the number of v, beside it, or far away.
fn index(random: &mut Random, bits: &[bool], v: u64) -> u64 {
    let number = number_of(bits, v == 1);
    match random.below(16) {
        0 => far(random),
        1 => WIDE + random.number_below(number + 1),
        2..=4 => near(random, number),
        5 => near(random, bits.len() as u64),
        6 => random.number_below(3),
        _ => random.number_below(number + 1),
    }
}

/// A label: of about `share` in 100 that of a row, if there is one, else any from 1 to 64; seldom none, or a row's plus
/// 2^32.
fn label(random: &mut Random, rows: &[Frozen], share: usize) -> u64 {
    let held = if rows.is_empty() { 3 } else { rows[random.below(rows.len())].0 };
    match random.below(24) {
        0 => WIDE + held,
        1 => one_of(random, &[0, 65, 128 + held, 256 + held]),
        2 => one_of(random, &[1, 64]),
        3 => far(random),
        _ if random.below(100) < share => held,
        _ => 1 + random.number_below(64),
    }
}

/// The capacity of a lay: mostly another than the scene's, for an accepted lay empties the strip.
fn capacity(random: &mut Random, own: u64) -> u64 {
    match random.below(24) {
        0 => own,
        1..=3 => own ^ 1,
        4..=6 => own.wrapping_add(512),
        7..=9 => own.wrapping_sub(512),
        10..=12 => own.wrapping_add(WIDE),
        13..=15 => far(random),
        16 | 17 => one_of(random, &BAD_CAPACITIES),
        18 => LARGEST,
        _ => 512 * random.number_below(600),
    }
}

/// A span: short, or between any two positions.
fn span(random: &mut Random, scene: &Scene) -> (u64, u64) {
    let length = scene.strip.len() as u64;
    let a = position(random, scene.capacity, length);
    match random.below(8) {
        0 => (a, position(random, scene.capacity, length)),
        1 => (a, near(random, length)),
        2 => (a, near(random, a)),
        _ => (a, a.saturating_add(random.number_below(150))),
    }
}

/// How many to keep by a cut: mostly nearly all.
fn kept(random: &mut Random, scene: &Scene) -> u64 {
    let length = scene.strip.len() as u64;
    match random.below(8) {
        0 => position(random, scene.capacity, length),
        1 => near(random, length),
        _ => length.saturating_sub(random.number_below(40)),
    }
}

/// The bits of a label's row.
fn row<'a>(scene: &Scene<'a>, label: u64) -> &'a [bool] {
    scene.rows.iter().find(|row| row.0 == label).map_or(&[], |row| &row.1)
}

/// The arguments of a call; those that it does not take are any.
fn arguments(random: &mut Random, opcode: Opcode, scene: &Scene) -> [u64; 3] {
    let any = if random.below(2) == 0 { 0 } else { random.number() };
    let (v, n) = (value(random), scene.strip.len() as u64);
    match opcode {
        Opcode::Create => [capacity(random, scene.capacity), any, any],
        Opcode::Push => [v, any, any],
        Opcode::Flip | Opcode::Get => [position(random, scene.capacity, n), any, any],
        Opcode::Fill => {
            let (a, b) = span(random, scene);
            [a, b, v]
        }
        Opcode::Truncate => [kept(random, scene), any, any],
        Opcode::Rank | Opcode::Successor | Opcode::Predecessor => [v, position(random, scene.capacity, n), any],
        Opcode::Select => [v, index(random, scene.strip, v), any],
        Opcode::Freeze => [label(random, scene.rows, 20), any, any],
        Opcode::RowRank | Opcode::RowSelect | Opcode::RowGet => {
            let label = label(random, scene.rows, 80);
            let bits = row(scene, label);
            let i = position(random, scene.capacity, bits.len() as u64);
            match opcode {
                Opcode::RowRank => [label, v, i],
                Opcode::RowSelect => [label, v, index(random, bits, v)],
                _ => [label, i, any],
            }
        }
        Opcode::Verify | Opcode::Clear | Opcode::Inspect => [any; 3],
    }
}

/// A query of the same kind, of a drawn argument.
pub fn query(random: &mut Random, query: Query, scene: &Scene) -> Query {
    let rows = scene.rows.len() as u64;
    match query {
        Query::CountersNeeded(_) => Query::CountersNeeded(capacity(random, scene.capacity)),
        Query::RecordSize(_) => Query::RecordSize(match random.below(4) {
            0 => near(random, LARGEST),
            _ => position(random, scene.capacity, LARGEST),
        }),
        Query::RowLength(_) => Query::RowLength(label(random, scene.rows, 80)),
        Query::RowLabel(_) => Query::RowLabel(match random.below(8) {
            0 => far(random),
            1 => WIDE + random.number_below(rows + 1),
            2 => near(random, rows),
            _ => random.number_below(rows + 1),
        }),
    }
}

/// A comparison of the same kind, of drawn arguments, on the bits of two strips of one length under a capacity.
pub fn comparison(random: &mut Random, kind: Comparison, capacity: u64, strips: (&[bool], &[bool])) -> Comparison {
    let i = position(random, capacity, strips.0.len() as u64);
    match kind {
        Comparison::Both(_) => Comparison::Both(i),
        Comparison::Either(_) => Comparison::Either(i),
        Comparison::OnlyFirst(_) => Comparison::OnlyFirst(i),
        Comparison::Differ(_) => Comparison::Differ(i),
        Comparison::Find(_) => {
            let differing: Vec<bool> = strips.0.iter().zip(strips.1).map(|(x, y)| x != y).collect();
            Comparison::Find(index(random, &differing, 1))
        }
        Comparison::Span(..) => {
            let (a, b) = span(random, &Scene { capacity, strip: strips.0, rows: &[] });
            Comparison::Span(a, b)
        }
    }
}

/// A call of the same kind, of a drawn argument, on the bits of a strip and its waiting strip of one length under a capacity:
/// k around the ones that every outcome has, or that some outcome has.
pub fn waiting(random: &mut Random, kind: Waiting, capacity: u64, strips: (&[bool], &[bool])) -> Waiting {
    match kind {
        Waiting::Count(_) => Waiting::Count(position(random, capacity, strips.0.len() as u64)),
        Waiting::Find(_) => {
            let under = random.below(2) == 0;
            let ones: Vec<bool> = strips.0.iter().zip(strips.1).map(|(x, y)| if *y { under } else { *x }).collect();
            Waiting::Find(index(random, &ones, 1))
        }
    }
}

/// A width: inside the strip, beside its length, beside a multiple of a unit, beside the most, or far away.
fn width(random: &mut Random, length: u64) -> u64 {
    match random.below(16) {
        0 => far(random),
        1 => WIDE + random.number_below(length + 1),
        2 => near(random, WIDEST),
        3 => near(random, length),
        4..=7 => {
            let unit = one_of(random, &UNITS[..4]);
            let edge = unit * random.number_below(length / unit + 2);
            near(random, edge)
        }
        8 => random.number_below(4),
        _ => 1 + random.number_below(length + 1),
    }
}

/// A burst to seek on a strip with these counts of its ones: m around the most that a window of the width holds, around the
/// width, or anywhere.
pub fn burst(random: &mut Random, counts: &[u32]) -> Burst {
    let w = width(random, counts.len() as u64 - 1);
    let most = model::fullest(counts, w).unwrap_or(1);
    let m = match random.below(16) {
        0 => far(random),
        1 => WIDE + random.number_below(most + 1),
        2 => near(random, w),
        3 => random.number_below(3),
        4..=10 => near(random, most),
        _ => 1 + random.number_below(most + 1),
    };
    Burst { w, m }
}

/// So many different labels, in any order.
pub fn labels(random: &mut Random, number: usize) -> Vec<u64> {
    let mut rest: Vec<u64> = (1..=64).collect();
    (0..number).map(|_| rest.swap_remove(random.below(rest.len()))).collect()
}

/// Positions around the ends of words, blocks, superblocks and the row, around the number of ones and of zeros, far past the
/// row, and some at random.
pub fn positions(random: &mut Random, bits: &[bool], some: usize) -> Vec<u64> {
    let mut list = [&SMALL[..], &FAR].concat();
    for edge in [length(bits), number_of(bits, true), number_of(bits, false)] {
        list.extend(beside(edge));
    }
    list.extend((0..some).map(|_| random.number_below(length(bits) + 3)));
    list
}

/// Flips a bit of a row's ones, entries or padding.
pub fn damage(random: &mut Random, part: &mut [u8]) {
    let length = layout::number(part, 8) as usize;
    let start = 128 + 128 * length.div_ceil(4096);
    let bit = 96 + random.below(8 * part.len() - length - 96);
    let bit = if bit < start { bit } else { bit + length };
    part[bit / 8] ^= 1 << (bit % 8);
}

/// Changes so many bytes of the header and of the first numbers of records, in an image with a sound chain.
pub fn change_numbers(random: &mut Random, image: &mut [u8], times: usize) {
    let places = [vec![0], layout::chain(image).unwrap()].concat();
    for _ in 0..times {
        let at = places[random.below(places.len())] + random.below(16);
        image[at] = [random.number() as u8, random.below(70) as u8, image[at] ^ 1 << random.below(8)][random.below(3)];
    }
}

/// The call of an opcode; the opcode has a multiple of 17 added at times.
pub fn call(random: &mut Random, opcode: Opcode, scene: &Scene) -> Call {
    let mut call = Call::new(opcode, arguments(random, opcode, scene));
    if random.below(4) == 0 {
        let most = (u64::MAX - call.op) / CALLS as u64;
        call.op += CALLS as u64 * (random.number() % (most + 1));
    }
    call
}
