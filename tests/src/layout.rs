//! The image by the scope document's layout, and the calls on its bytes.
use crate::borders::{LARGEST, MOST_BYTES};
use crate::model::{self, length, number_of};
use crate::refusal::{Answer, Refusal};
use crate::Handle;
use Refusal::*;

/// Four bytes as a number.
pub fn number(bytes: &[u8], at: usize) -> u64 {
    u32::from_le_bytes(bytes[at..at + 4].try_into().unwrap()).into()
}

/// Stores a number as four bytes.
pub fn store(bytes: &mut [u8], at: usize, value: u64) {
    bytes[at..at + 4].copy_from_slice(&(value as u32).to_le_bytes());
}

/// The bytes of a record of that length.
pub fn size(length: u64) -> usize {
    16 + 528 * length.div_ceil(4096) as usize
}

/// The bytes of a record of a row of that length: 4 where no row is so long.
pub fn record_size(length: u64) -> Answer {
    Position.when(length > LARGEST)?;
    Ok(size(length) as u64)
}

/// The byte of a unit.
fn byte(unit: u64) -> usize {
    16 * unit as usize
}

/// The unit of a byte where a record starts.
fn unit(at: usize) -> u64 {
    at as u64 / 16
}

/// 13 of clear.
pub fn check_size(bytes: usize) -> Result<(), Refusal> {
    NoRoom.when(!(16..=MOST_BYTES).contains(&bytes))
}

/// 11.
pub fn check_label(label: u64) -> Result<(), Refusal> {
    BadLabel.when(!(1..=64).contains(&label))
}

/// A record: next, label, length, ones; the entries; the bits.
pub fn record(next: u64, label: u64, bits: &[bool]) -> Vec<u8> {
    let mut bytes = Vec::new();
    for value in [next, label, length(bits), number_of(bits, true)] {
        bytes.extend((value as u32).to_le_bytes());
    }
    let ones = |bits: &[bool]| u128::from(number_of(bits, true));
    let mut before = 0;
    for superblock in bits.chunks(4096) {
        let mut entry = before;
        for j in 1..8 {
            entry |= ones(&superblock[..superblock.len().min(512 * j)]) << (44 + 12 * (j - 1));
        }
        bytes.extend(entry.to_le_bytes());
        before += ones(superblock);
    }
    let start = bytes.len();
    bytes.resize(size(length(bits)), 0);
    for (p, &b) in bits.iter().enumerate() {
        bytes[start + p / 8] |= u8::from(b) << (p % 8);
    }
    bytes
}

/// An image of rows, each so many units past the end of the one before, with as many units after the last.
pub fn image(rows: &[(usize, u64, Vec<bool>)], spare: usize) -> Vec<u8> {
    let mut bytes = vec![0; 16];
    bytes[4] = 1;
    let mut link = 0;
    for (gap, label, bits) in rows {
        bytes.resize(bytes.len() + 16 * gap, 0xee);
        let at = bytes.len();
        store(&mut bytes, link, unit(at));
        bytes.extend(record(0, *label, bits));
        link = at;
    }
    bytes.resize(bytes.len() + 16 * spare, 0xdd);
    bytes
}

/// The places of a sound chain's records.
pub fn chain(image: &[u8]) -> Option<Vec<usize>> {
    check_size(image.len()).ok()?;
    if [4, 8, 12].map(|at| number(image, at)) != [1, 0, 0] {
        return None;
    }
    let mut places: Vec<usize> = Vec::new();
    let mut at = byte(number(image, 0));
    while at != 0 {
        if at + 16 > image.len() {
            return None;
        }
        let (label, length) = (number(image, at + 4), number(image, at + 8));
        let end = at + size(length);
        let next = byte(number(image, at));
        let met = places.iter().any(|&p| number(image, p + 4) == label);
        check_label(label).ok()?;
        if met || length > LARGEST || end > image.len() || (next != 0 && next < end) {
            return None;
        }
        places.push(at);
        at = next;
    }
    Some(places)
}

/// Opening: 10, 11, 14, or the record's place.
pub fn open(image: &[u8], label: u64) -> Answer {
    let places = chain(image).ok_or(Unsound)?;
    check_label(label)?;
    let found = places.into_iter().find(|&p| number(image, p + 4) == label);
    found.map(|p| p as u64).ok_or(LabelAbsent)
}

/// clear: 13, or 16.
pub fn clear(image: &mut [u8]) -> Answer {
    check_size(image.len())?;
    image[..16].copy_from_slice(&[0, 0, 0, 0, 1, 0, 0, 0, 0, 0, 0, 0, 0, 0, 0, 0]);
    Ok(16)
}

/// freeze(label): 1, 2, 10, 11, 12, 13, or the record's unit index. The strip is the first bits of those lent.
pub fn freeze(h: Handle, lent: &[bool], image: &mut [u8], label: u64) -> Answer {
    model::check(h, lent.len() / 64, None)?;
    match open(image, label) {
        Ok(_) => return Err(LabelPresent),
        Err(LabelAbsent) => {}
        Err(refusal) => return Err(refusal),
    }
    let last = chain(image).unwrap().last().copied();
    let at = last.map_or(16, |p| p + size(number(image, p + 8)));
    NoRoom.when(at + size(h.length) > image.len())?;
    store(image, last.unwrap_or(0), unit(at));
    image[at..at + size(h.length)].copy_from_slice(&record(0, label, &lent[..h.length as usize]));
    Ok(unit(at))
}

/// inspect: 10, 15, or the number of rows.
pub fn inspect(image: &[u8]) -> Answer {
    let places = chain(image).ok_or(Unsound)?;
    WrongRow.when(places.iter().any(|&at| !Row::new(part(image, at)).right))?;
    Ok(places.len() as u64)
}

/// A row: its bits, and whether it is right.
pub struct Row {
    pub bits: Vec<bool>,
    pub right: bool,
}

impl Row {
    /// A part that is one record. The row is right where the part is the record of its own bits.
    pub fn new(part: &[u8]) -> Row {
        let length = number(part, 8) as usize;
        let start = 16 + 16 * length.div_ceil(4096);
        let bits: Vec<bool> = (0..length).map(|p| part[start + p / 8] >> (p % 8) & 1 == 1).collect();
        let right = part == record(number(part, 0), number(part, 4), &bits);
        Row { bits, right }
    }
}

/// The part of an image that is the record at a place.
pub fn part(image: &[u8], at: usize) -> &[u8] {
    &image[at..at + size(number(image, at + 8))]
}

/// The row of a label: 10, 11, 14.
pub fn row(image: &[u8], label: u64) -> Result<Row, Refusal> {
    let at = open(image, label)? as usize;
    Ok(Row::new(part(image, at)))
}

/// The rows of a sound chain, in its order: their labels and lengths.
pub fn rows(image: &[u8]) -> Option<Vec<(u64, u64)>> {
    let places = chain(image)?;
    Some(places.into_iter().map(|at| (number(image, at + 4), number(image, at + 8))).collect())
}

/// The length of a label's row: 10, 11, 14.
pub fn row_length(image: &[u8], label: u64) -> Answer {
    let rows = rows(image).ok_or(Unsound)?;
    check_label(label)?;
    rows.into_iter().find(|row| row.0 == label).map(|row| row.1).ok_or(LabelAbsent)
}

/// The label of the k-th row, k from 0: 10, 14.
pub fn row_label(image: &[u8], k: u64) -> Answer {
    let rows = rows(image).ok_or(Unsound)?;
    LabelAbsent.when(k >= rows.len() as u64)?;
    Ok(rows[k as usize].0)
}
