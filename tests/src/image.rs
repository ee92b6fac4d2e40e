//! Bytes lent to the proved calls on an image. Each call is given buffers of its own, between guards, and is asserted to leave
//! those that it only reads as they were.
use crate::ffi::{
    image_clear, image_freeze, image_inspect, image_merge, image_open, image_opened_get, image_opened_rank,
    image_opened_select, image_part_get, image_part_rank, image_part_select, image_record_size, image_row_get,
    image_row_label, image_row_length, image_row_rank, image_row_select,
};
use crate::guarded::Guarded;
use crate::refusal::{answer, Answer, Refusal};
use crate::waiting::Pointers;
use crate::{Handle, Lent};
use std::ops::Range;

/// Runs a call on bytes between two guards.
fn run(bytes: &[u8], call: impl FnOnce(*mut u8, usize) -> u64) -> (u64, Guarded<u8>) {
    let mut lent = Guarded::new(bytes, 0xa5);
    let (memory, size) = lent.lend();
    let told = call(memory, size);
    assert!(lent.intact(), "a call wrote to a guard");
    (told, lent)
}

/// What a call tells that only reads these bytes.
fn told_of(bytes: &[u8], call: impl FnOnce(*const u8, usize) -> u64) -> u64 {
    let (told, lent) = run(bytes, |memory, size| call(memory, size));
    assert!(lent.numbers() == bytes, "a call wrote to what it only reads");
    told
}

fn change(bytes: &mut [u8], call: impl FnOnce(*mut u8, usize) -> u64) -> Answer {
    let (told, lent) = run(bytes, call);
    bytes.copy_from_slice(lent.numbers());
    answer(told)
}

fn reading(bytes: &[u8], call: impl FnOnce(*const u8, usize) -> u64) -> Answer {
    answer(told_of(bytes, call))
}

/// clear
pub fn clear(image: &mut [u8]) -> Answer {
    // SAFETY: the pointer is to as many bytes as are named, which live through the call; so too below.
    change(image, |bytes, size| unsafe { image_clear(bytes, size) })
}

/// freeze(label)
pub fn freeze(h: Handle, words: &[u64], image: &mut [u8], label: u64) -> Answer {
    let mut lent = Lent::new(words);
    let (words, count) = lent.lend();
    let told = unsafe { freeze_from((h, words, count), image, label) };
    lent.unchanged();
    told
}

/// The same from wherever the words lie.
///
/// # Safety
/// The pointer is to so many words, which live through the call.
pub unsafe fn freeze_from((h, words, count): Pointers, image: &mut [u8], label: u64) -> Answer {
    change(image, |bytes, size| unsafe {
        image_freeze(h.capacity, h.length, h.total, words, count, bytes, size, label)
    })
}

/// merge
pub fn merge(first: &[u8], second: &[u8], third: &mut [u8]) -> Answer {
    change(third, |to, room| {
        told_of(first, |xs, nx| told_of(second, |ys, ny| unsafe { image_merge(xs, nx, ys, ny, to, room) }))
    })
}

/// The same of two parts of one buffer, which may overlap.
pub fn merge_parts(bytes: &[u8], parts: [Range<usize>; 2], third: &mut [u8]) -> Answer {
    change(third, |to, room| {
        told_of(bytes, |memory, size| {
            let [(xs, nx), (ys, ny)] = parts.map(|part| {
                assert!(part.start <= part.end && part.end <= size);
                (memory.wrapping_add(part.start), part.len())
            });
            unsafe { image_merge(xs, nx, ys, ny, to, room) }
        })
    })
}

/// The bytes of a row's record.
pub fn record_size(length: u64) -> Answer {
    // SAFETY: the call takes a number only.
    answer(unsafe { image_record_size(length) })
}

/// inspect
pub fn inspect(image: &[u8]) -> Answer {
    reading(image, |bytes, size| unsafe { image_inspect(bytes, size) })
}

/// The length of a label's row.
pub fn row_length(image: &[u8], label: u64) -> Answer {
    reading(image, |bytes, size| unsafe { image_row_length(bytes, size, label) })
}

/// The label of the k-th row.
pub fn row_label(image: &[u8], k: u64) -> Answer {
    reading(image, |bytes, size| unsafe { image_row_label(bytes, size, k) })
}

/// The labels and lengths of the rows, asked for in order till one is refused: those, and that refusal.
pub fn rows(image: &[u8]) -> (Vec<(u64, u64)>, Refusal) {
    let mut rows = Vec::new();
    loop {
        match row_label(image, rows.len() as u64) {
            Ok(label) => rows.push((label, row_length(image, label).unwrap())),
            Err(refusal) => return (rows, refusal),
        }
    }
}

/// The place of a label's record.
pub fn open(image: &[u8], label: u64) -> Answer {
    reading(image, |bytes, size| unsafe { image_open(bytes, size, label) })
}

/// look(i) on a label's row.
pub fn row_get(image: &[u8], label: u64, i: u64) -> Answer {
    reading(image, |bytes, size| unsafe { image_row_get(bytes, size, label, i) })
}

/// count(v, i) on a label's row.
pub fn row_rank(image: &[u8], label: u64, v: u64, i: u64) -> Answer {
    reading(image, |bytes, size| unsafe { image_row_rank(bytes, size, label, v, i) })
}

/// find(v, k) on a label's row.
pub fn row_select(image: &[u8], label: u64, v: u64, k: u64) -> Answer {
    reading(image, |bytes, size| unsafe { image_row_select(bytes, size, label, v, k) })
}

/// look(i) on a row's part and a held length.
pub fn get(part: &[u8], n: u64, i: u64) -> Answer {
    reading(part, |bytes, size| unsafe { image_part_get(bytes, size, n, i) })
}

/// count(v, i) on a row's part and a held length.
pub fn rank(part: &[u8], n: u64, v: u64, i: u64) -> Answer {
    reading(part, |bytes, size| unsafe { image_part_rank(bytes, size, n, v, i) })
}

/// find(v, k) on a row's part and a held length.
pub fn select(part: &[u8], n: u64, v: u64, k: u64) -> Answer {
    reading(part, |bytes, size| unsafe { image_part_select(bytes, size, n, v, k) })
}

/// Opening a row, then look(i) on it.
pub fn opened_get(image: &[u8], label: u64, i: u64) -> Answer {
    reading(image, |bytes, size| unsafe { image_opened_get(bytes, size, label, i) })
}

/// Opening a row, then count(v, i) on it.
pub fn opened_rank(image: &[u8], label: u64, v: u64, i: u64) -> Answer {
    reading(image, |bytes, size| unsafe { image_opened_rank(bytes, size, label, v, i) })
}

/// Opening a row, then find(v, k) on it.
pub fn opened_select(image: &[u8], label: u64, v: u64, k: u64) -> Answer {
    reading(image, |bytes, size| unsafe { image_opened_select(bytes, size, label, v, k) })
}
