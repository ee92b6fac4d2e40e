//! The merge of two images into a third buffer, against the plain model and against bytes worked out by hand.
use std::ops::Range;
use std::ptr::{null, null_mut};
use strip_tests::borders::{FAR, LARGEST, MOST_BYTES, SMALL};
use strip_tests::cases::Cases;
use strip_tests::draw::{change_numbers, damage, labels, positions};
use strip_tests::ffi::image_merge;
use strip_tests::image::{inspect, merge, merge_parts, row_get, row_label, row_length, row_rank, row_select, rows};
use strip_tests::layout;
use strip_tests::merge::owed;
use strip_tests::model::{length, text};
use strip_tests::paper::Frozen;
use strip_tests::random::Random;
use strip_tests::refusal::{answer, Answer, Refusal};
use strip_tests::tally::Tally;
use Refusal::{Conflict, LabelAbsent, NoRoom, Unsound, WrongRow};

// ---- one merge against the model

/// Holds a merge of two images to the model: the answer and every byte of a copy of the third buffer, which is given back. A
/// result passes inspection with as many rows as were told.
fn hold(first: &[u8], second: &[u8], third: &[u8], call: impl FnOnce(&mut [u8]) -> Answer) -> (Answer, Vec<u8>) {
    let (mut wanted, mut result) = (third.to_vec(), third.to_vec());
    let (due, told) = (owed(first, second, &mut wanted), call(&mut result));
    assert_eq!(told, due, "{} and {} bytes into {}", first.len(), second.len(), third.len());
    let other = result.iter().zip(&wanted).position(|(is, wanted)| is != wanted);
    assert_eq!(other, None, "the first byte that is another, told {told:?}");
    if told.is_ok() {
        assert_eq!(inspect(&result), told);
    }
    (told, result)
}

/// Merges two images from buffers of their own.
fn compare(first: &[u8], second: &[u8], third: &[u8]) -> (Answer, Vec<u8>) {
    hold(first, second, third, |result| merge(first, second, result))
}

/// Merges an image and a part of it from one buffer, and the part and the image.
fn compare_part(image: &[u8], part: Range<usize>, third: &[u8]) -> [Answer; 2] {
    let all = 0..image.len();
    [[all.clone(), part.clone()], [part, all]].map(|parts| {
        let [first, second] = parts.clone().map(|part| &image[part]);
        hold(first, second, third, |result| merge_parts(image, parts, result)).0
    })
}

/// Merges two images from buffers of their own, and the answer is this one.
fn expect(first: &[u8], second: &[u8], third: &[u8], wanted: Answer) -> Vec<u8> {
    let (told, result) = compare(first, second, third);
    assert_eq!(told, wanted);
    result
}

/// The readings of a label's row at a position.
fn readings(image: &[u8], label: u64, i: u64) -> [Answer; 7] {
    [
        row_get(image, label, i),
        row_rank(image, label, 0, i),
        row_rank(image, label, 1, i),
        row_rank(image, label, 2, i),
        row_select(image, label, 0, i),
        row_select(image, label, 1, i),
        row_select(image, label, 2, i),
    ]
}

/// Every reading of a result, by every label and by none, is that of each image which has the row.
fn compare_readings(random: &mut Random, first: &[u8], second: &[u8], result: &[u8]) {
    let (mut wanted, absent) = rows(first);
    let has = |image: &[u8], label: u64| row_length(image, label).is_ok();
    wanted.extend(rows(second).0.into_iter().filter(|row| !has(first, row.0)));
    assert_eq!(rows(result), (wanted.clone(), absent));
    for k in (wanted.len() as u64..=65).chain(FAR) {
        assert_eq!(row_label(result, k), Err(LabelAbsent), "row {k} of {}", wanted.len());
    }
    for label in 0..=65 {
        let givers = match [first, second].map(|image| has(image, label)) {
            [true, true] => vec![first, second],
            [true, false] => vec![first],
            _ => vec![second],
        };
        assert!(givers.iter().all(|giver| row_length(giver, label) == row_length(result, label)), "length of {label}");
        let bits = layout::row(givers[0], label).map_or(Vec::new(), |row| row.bits);
        for i in positions(random, &bits, 3) {
            let told = readings(result, label, i);
            assert!(givers.iter().all(|giver| readings(giver, label, i) == told), "label {label} at {i}: {told:?}");
        }
    }
}

// ---- what is merged

/// None, few, half and all ones, of 1,000.
const SHARES: [usize; 4] = [0, 3, 500, 1000];

/// Bits of a border's length or any, of any of the densities.
fn some_bits(random: &mut Random) -> Vec<bool> {
    let length = match random.below(4) {
        0 => random.number_below(700),
        1 => random.number_below(9000),
        _ => SMALL[random.below(SMALL.len())],
    };
    let share = SHARES[random.below(SHARES.len())];
    random.bits(length, share)
}

/// So many rows of different labels, in any order.
fn some_rows(random: &mut Random, number: usize) -> Vec<Frozen> {
    labels(random, number).into_iter().map(|label| (label, some_bits(random))).collect()
}

/// So many bytes of anything, among them records of rows that no chain holds.
fn garbage(random: &mut Random, size: usize) -> Vec<u8> {
    let mut bytes = Vec::new();
    while bytes.len() < size {
        let stray = layout::record(random.number_below(9), 1 + random.number_below(64), &[]);
        let any = random.number().to_le_bytes().repeat(2);
        bytes.extend(if random.below(2) == 0 { stray } else { any });
    }
    bytes.truncate(size);
    bytes
}

/// An image of these rows, with garbage between them and after the last.
fn image_of(random: &mut Random, rows: &[Frozen]) -> Vec<u8> {
    let mut gapped = Vec::new();
    for (label, bits) in rows {
        gapped.push((random.below(2) * random.below(4), *label, bits.clone()));
    }
    let mut image = layout::image(&gapped, random.below(3));
    let mut from = 16;
    for at in layout::chain(&image).unwrap() {
        image[from..at].copy_from_slice(&garbage(random, at - from));
        from = at + layout::part(&image, at).len();
    }
    let past = image.len() - from + random.below(16);
    image.truncate(from);
    image.extend(garbage(random, past));
    image
}

/// The rows in another order.
fn shuffled(random: &mut Random, rows: &[Frozen]) -> Vec<Frozen> {
    let mut rest = rows.to_vec();
    (0..rows.len()).map(|_| rest.swap_remove(random.below(rest.len()))).collect()
}

/// The bytes of a merge of these rows, if no label in both has unequal ones.
fn needed(first: &[Frozen], second: &[Frozen]) -> usize {
    let lacking = second.iter().filter(|row| first.iter().all(|own| own.0 != row.0));
    16 + first.iter().chain(lacking).map(|row| layout::size(length(&row.1))).sum::<usize>()
}

/// Rows unequal to one of these bits: longer by zeros or by a one, shorter, with one bit turned, with two that differ swapped,
/// empty.
fn unequal(random: &mut Random, bits: &[bool]) -> Vec<Vec<bool>> {
    let n = bits.len();
    let to_the_end = [512, 4096].map(|part| n.next_multiple_of(part) - n);
    let zeros = [1, 63, 64, 512, 4096].into_iter().chain(to_the_end);
    let mut list: Vec<Vec<bool>> = zeros.map(|more| [bits, &vec![false; more]].concat()).collect();
    list.extend([[bits, &[true]].concat(), bits[..n.saturating_sub(1)].to_vec(), bits[..n / 2].to_vec(), Vec::new()]);
    for p in [0, n / 2, n.wrapping_sub(1), random.below(n + 1)].into_iter().filter(|p| *p < n) {
        let mut turned = bits.to_vec();
        turned[p] = !turned[p];
        list.push(turned);
    }
    // the same number of ones, and mostly the same entries
    let borders: Vec<usize> = (1..n).filter(|p| bits[*p - 1] != bits[*p]).collect();
    if !borders.is_empty() {
        for p in [borders[0], borders[random.below(borders.len())], borders[borders.len() - 1]] {
            let mut swapped = bits.to_vec();
            swapped.swap(p - 1, p);
            list.push(swapped);
        }
    }
    list.retain(|other| other != bits);
    list
}

// ---- rows of two images

/// 01010 as label 3 in both; in the second an empty row of label 64 before it.
#[test]
fn worked_out_by_hand() {
    let first = layout::image(&[(0, 3, text("01010"))], 0);
    let second = layout::image(&[(2, 64, Vec::new()), (1, 3, text("01010"))], 1);
    let empty = |next: u8| [next, 0, 0, 0, 64, 0, 0, 0, 0, 0, 0, 0, 0, 0, 0, 0];
    // label 3 at unit 1, label 64 at unit 35
    let mut wanted = first.clone();
    wanted[16] = 35;
    wanted.extend(empty(0));
    wanted.resize(600, 0x77);
    let mut third = vec![0x77; 600];
    assert_eq!(merge(&first, &second, &mut third), Ok(2));
    assert_eq!(third, wanted);
    // label 64 at unit 1, label 3 at unit 2
    let mut wanted = vec![1, 0, 0, 0, 1, 0, 0, 0, 0, 0, 0, 0, 0, 0, 0, 0];
    wanted.extend(empty(2));
    wanted.extend(&first[16..]);
    wanted.resize(600, 0x77);
    let mut third = vec![0x77; 600];
    assert_eq!(merge(&second, &first, &mut third), Ok(2));
    assert_eq!(third, wanted);
    // label 3 alone
    let mut third = vec![0x77; 560];
    assert_eq!(merge(&first, &first, &mut third), Ok(1));
    assert_eq!(third, first);
    assert_eq!(merge(&first, &second, &mut third), Err(NoRoom));
    assert_eq!(third, first);
}

/// Two empty chains; an empty one and another, which is packed.
#[test]
fn empty_chains() {
    let mut cases = Cases::new("merge", "empty_chains", 801);
    for [first, second, third] in [[16, 16, 16], [16, 40, 17], [17, 16, 31], [31, 100, 32], [100, 31, 100]] {
        cases.run(|random| {
            let [first, second] = [first, second].map(|size| {
                let mut image = garbage(random, size);
                layout::clear(&mut image).unwrap();
                image
            });
            let third = garbage(random, third);
            let result = expect(&first, &second, &third, Ok(0));
            assert_eq!(result[..16], [0, 0, 0, 0, 1, 0, 0, 0, 0, 0, 0, 0, 0, 0, 0, 0]);
            assert_eq!(result[16..], third[16..]);
            compare_readings(random, &first, &second, &result);
            let rows = some_rows(random, 5);
            let image = image_of(random, &rows);
            let third = garbage(random, needed(&rows, &[]) + third.len());
            for (x, y) in [(&first, &image), (&image, &second)] {
                let result = expect(x, y, &third, Ok(5));
                compare_readings(random, x, y, &result);
            }
        });
    }
}

/// A row of each length and density beside one of each length; and each with itself.
#[test]
fn rows_of_each_length() {
    let mut cases = Cases::new("merge", "rows_of_each_length", 802);
    for length in SMALL.into_iter().chain([8192, 20_000]) {
        for share in SHARES {
            cases.run(|random| {
                let row = (9, random.bits(length, share));
                let first = image_of(random, &[row.clone()]);
                for other in SMALL {
                    let others = [(4, random.bits(other, 500)), row.clone(), (64, random.bits(other, share))];
                    let size = needed(&others, &[]) + random.below(40);
                    let (second, third) = (image_of(random, &others), garbage(random, size));
                    expect(&first, &first, &third, Ok(1));
                    let results = [expect(&first, &second, &third, Ok(3)), expect(&second, &first, &third, Ok(3))];
                    if other == length {
                        compare_readings(random, &first, &second, &results[0]);
                        compare_readings(random, &second, &first, &results[1]);
                    }
                }
            });
        }
    }
}

/// Rows of any labels in any order, some of them in both images: once, at the first's place.
#[test]
fn equal_rows_stand_once() {
    let mut cases = Cases::new("merge", "equal_rows_stand_once", 803);
    for round in 0..120 {
        cases.run(|random| {
            let [own, both, others] = [0; 3].map(|_| random.below(5));
            let rows = some_rows(random, own + both + others);
            let (first, second) = (shuffled(random, &rows[..own + both]), shuffled(random, &rows[own..]));
            let size = needed(&first, &second) + random.below(100);
            let (first, second) = (image_of(random, &first), image_of(random, &second));
            let result = expect(&first, &second, &garbage(random, size), Ok(rows.len() as u64));
            if round % 4 == 0 {
                compare_readings(random, &first, &second, &result);
            }
        });
    }
}

/// Up to all 64 labels, with none, some and all in both.
#[test]
fn many_rows() {
    let mut cases = Cases::new("merge", "many_rows", 804);
    for (own, both, others) in [(0, 64, 0), (32, 0, 32), (64, 0, 0), (0, 0, 64), (24, 16, 24), (1, 62, 1), (0, 63, 0)] {
        cases.run(|random| {
            let drawn = labels(random, own + both + others);
            let rows: Vec<Frozen> = drawn.iter().map(|label| (*label, random.bits(*label * 15, 500))).collect();
            let (first, second) = (shuffled(random, &rows[..own + both]), shuffled(random, &rows[own..]));
            let third = garbage(random, needed(&first, &second));
            let images = [image_of(random, &first), image_of(random, &second)];
            let result = expect(&images[0], &images[1], &third, Ok(rows.len() as u64));
            compare_readings(random, &images[0], &images[1], &result);
            // one row of both is another, at the ends of the second's chain and inside it
            for place in [0, second.len() / 2, second.len().saturating_sub(1)] {
                let mut second = second.clone();
                if second.get(place).is_some_and(|row| first.iter().any(|own| own.0 == row.0)) {
                    second[place].1.push(false);
                    expect(&images[0], &image_of(random, &second), &third, Err(Conflict));
                }
            }
        });
    }
}

/// What a merge leaves may be merged again: with either image nothing comes to it, and three images may be merged in either
/// grouping.
#[test]
fn merged_again() {
    let mut cases = Cases::new("merge", "merged_again", 805);
    for _ in 0..60 {
        cases.run(|random| {
            let rows = some_rows(random, 9);
            let [a, b, c] = [&rows[..5], &rows[3..7], &rows[4..]].map(|part| {
                let rows = shuffled(random, part);
                image_of(random, &rows)
            });
            let third = garbage(random, needed(&rows, &[]));
            let (ab, bc) = (expect(&a, &b, &third, Ok(7)), expect(&b, &c, &third, Ok(6)));
            for (x, y) in [(&ab, &a), (&ab, &b), (&a, &ab), (&ab, &ab)] {
                assert_eq!(expect(x, y, &third, Ok(7)), ab);
            }
            assert_eq!(expect(&ab, &c, &third, Ok(9)), expect(&a, &bc, &third, Ok(9)));
        });
    }
}

// ---- unequal rows under one label

/// Rows of each length and density and such as are unequal to them, in either image, beside other rows; with room and without.
#[test]
fn unequal_rows() {
    let mut cases = Cases::new("merge", "unequal_rows", 806);
    for length in SMALL.into_iter().chain([300, 8192, 9000]) {
        for share in SHARES {
            cases.run(|random| {
                let row = (7, random.bits(length, share));
                let beside = [(1, some_bits(random)), (64, some_bits(random)), (30, some_bits(random))];
                for other in unequal(random, &row.1) {
                    let [a, b, c] = &beside;
                    let first = shuffled(random, &[a.clone(), row.clone(), b.clone()]);
                    let second = shuffled(random, &[b.clone(), (7, other), c.clone()]);
                    let size = needed(&first, &second) + 1000;
                    let (first, second) = (image_of(random, &first), image_of(random, &second));
                    for size in [size, 20, 16, 15, 0] {
                        let third = garbage(random, size);
                        expect(&first, &second, &third, Err(Conflict));
                        expect(&second, &first, &third, Err(Conflict));
                    }
                }
            });
        }
    }
}

/// Asserts that a row is in conflict with another of its label, in either image, and that the third buffer is kept.
fn expect_conflict(bits: &[bool], other: &[bool]) {
    let images = [bits, other].map(|bits| layout::image(&[(0, 5, bits.to_vec())], 0));
    for (first, second) in [(0, 1), (1, 0)] {
        let mut third = vec![0x77; 3000];
        assert_eq!(merge(&images[first], &images[second], &mut third), Err(Conflict));
        assert!(third.iter().all(|b| *b == 0x77), "a refused merge wrote");
    }
}

/// Each bit of a row turned; and each put in the place of a one beside it, so that the number of ones stays.
#[test]
fn every_bit_counts() {
    let n = 4700;
    for p in 0..n {
        let one_at = |p: usize| (0..n).map(|q| q == p).collect::<Vec<bool>>();
        expect_conflict(&vec![false; n], &one_at(p));
        expect_conflict(&one_at((p + 1) % n), &one_at(p));
    }
}

/// Zeros of every length, and one zero more.
#[test]
fn every_length_counts() {
    for n in 0..8200 {
        expect_conflict(&vec![false; n], &vec![false; n + 1]);
    }
}

// ---- the third buffer

/// Buffers of no bytes up to one past the header, around the end of the result, and longer. Where the result fits, what
/// follows it is kept; else all is.
#[test]
fn third_buffers() {
    let mut cases = Cases::new("merge", "third_buffers", 807);
    for (own, both, others) in [(0, 0, 0), (1, 0, 0), (0, 1, 0), (0, 0, 1), (1, 0, 1), (2, 2, 2)] {
        for _ in 0..4 {
            cases.run(|random| {
                let rows = some_rows(random, own + both + others);
                let (first, second) = (&rows[..own + both], &rows[own..]);
                let end = needed(first, second);
                let (first, second) = (image_of(random, first), image_of(random, second));
                let number = Ok(rows.len() as u64);
                for size in (0..=17).chain(end.saturating_sub(33)..end + 33).chain([end + 600, end + 5000]) {
                    let third = garbage(random, size);
                    let result = expect(&first, &second, &third, if size < end { Err(NoRoom) } else { number });
                    let kept = if size < end { 0 } else { end };
                    assert_eq!(result[kept..], third[kept..]);
                }
            });
        }
    }
}

// ---- one buffer

/// The same bytes lent for both images; an image, and a prefix or a suffix of it. A prefix with all records is the same image.
#[test]
fn one_buffer() {
    let mut cases = Cases::new("merge", "one_buffer", 812);
    for number in (0..6).flat_map(|number| [number; 8]) {
        cases.run(|random| {
            let rows = some_rows(random, number);
            let (image, end) = (image_of(random, &rows), needed(&rows, &[]));
            let (size, number) = (image.len(), Ok(number as u64));
            for room in [0, 16, end - 1, end, end + 40] {
                let third = garbage(random, room);
                assert_eq!(compare_part(&image, 0..size, &third), [if room < end { Err(NoRoom) } else { number }; 2]);
            }
            let places = layout::chain(&image).unwrap();
            let past = places.last().map_or(16, |at| at + layout::part(&image, *at).len());
            let third = garbage(random, end);
            let some = [0; 6].map(|_| random.below(size));
            for at in places.into_iter().chain([0, 1, 15, 16, past - 1, past, size - 1, size]).chain(some) {
                let wanted = if at < past { Err(Unsound) } else { number };
                assert_eq!(compare_part(&image, 0..at, &third), [wanted; 2], "the first {at} bytes");
                let (inspected, told) = (layout::inspect(&image[at..]), compare_part(&image, at..size, &third));
                assert!(inspected.is_ok() || told == [inspected; 2], "those from {at}: {told:?}, not {inspected:?}");
            }
        });
    }
}

/// A suffix that is an image too, by a header in the gap before the last record: this is in both chains.
#[test]
fn one_record_in_both() {
    let mut cases = Cases::new("merge", "one_record_in_both", 813);
    for number in (1..6).flat_map(|number| [number; 8]) {
        cases.run(|random| {
            let rows = some_rows(random, number);
            let gapped: Vec<_> = rows.iter().map(|(label, bits)| (1, *label, bits.clone())).collect();
            let mut image = layout::image(&gapped, random.below(3));
            let header = layout::chain(&image).unwrap()[number - 1] - 16;
            layout::clear(&mut image[header..]).unwrap();
            layout::store(&mut image, header, 1);
            let third = garbage(random, needed(&rows, &[]));
            assert_eq!(compare_part(&image, header..image.len(), &third), [Ok(number as u64); 2]);
        });
    }
}

// ---- refusals

/// Makes a row of a sound chain wrong, if there is one.
fn spoil_row(random: &mut Random, image: &mut [u8]) {
    let places = layout::chain(image).unwrap();
    if !places.is_empty() {
        let at = places[random.below(places.len())];
        let end = at + layout::part(image, at).len();
        damage(random, &mut image[at..end]);
    }
}

/// Breaks a sound chain of two rows or more.
fn break_chain(random: &mut Random, image: &mut Vec<u8>) {
    let places = layout::chain(image).unwrap();
    let (first, last) = (places[0], places[places.len() - 1]);
    let end = last + layout::part(image, last).len();
    let (label, next) = (layout::number(image, first + 4), layout::number(image, first));
    match random.below(13) {
        0 => layout::store(image, 4, [0, 2, 257, 1 << 31][random.below(4)]),
        1 => image[8 + random.below(8)] = 1 << random.below(8),
        2 => layout::store(image, last, last as u64 / 16),
        3 => layout::store(image, last, 1),
        4 => layout::store(image, last + 4, [0, 65, 256 + label, u32::MAX.into()][random.below(4)]),
        5 => layout::store(image, last + 8, [LARGEST, LARGEST + 1, u32::MAX.into()][random.below(3)]),
        // a place that would be right if it were cut to 32 bits
        6 => layout::store(image, 0, first as u64 / 16 + (1 << 28)),
        7 => layout::store(image, first, next + (1 << 31)),
        8 => image.truncate(end - 1),
        9 => image.truncate(last + 15),
        10 => image.truncate(15),
        11 => layout::store(image, last + 4, label),
        _ => image.clear(),
    }
    assert_eq!(layout::chain(image), None);
}

/// An image of these rows that has a wrong row, no sound chain, both or neither.
fn faulty(random: &mut Random, rows: &[Frozen], broken: bool, wrong: bool) -> Vec<u8> {
    let rows = shuffled(random, rows);
    let mut image = image_of(random, &rows);
    if wrong {
        spoil_row(random, &mut image);
    }
    if broken {
        break_chain(random, &mut image);
    }
    image
}

/// Each set of faults at once: 10 or 15 of the first image, 10 or 15 of the second, 18, 13.
#[test]
fn first_refusal_wins() {
    let mut cases = Cases::new("merge", "first_refusal_wins", 808);
    let order = [Unsound, WrongRow, Unsound, WrongRow, Conflict, NoRoom];
    for faults in 0..64 {
        let has = |n: usize| faults >> n & 1 == 1;
        let refusal = (0..6).find(|n| has(*n)).map(|n| order[n]);
        for _ in 0..12 {
            cases.run(|random| {
                let rows = some_rows(random, 5);
                let (first, mut second) = (&rows[..3], rows[2..].to_vec());
                let end = needed(first, &second);
                if has(4) {
                    let others = unequal(random, &second[0].1);
                    second[0].1.clone_from(&others[random.below(others.len())]);
                }
                let first = faulty(random, first, has(0), has(1));
                let second = faulty(random, &second, has(2), has(3));
                let short = [0, 15, 16, 17, random.below(end), end - 1];
                let enough = [end, end + 1, end + 700];
                for size in if has(5) { &short[..] } else { &enough } {
                    let third = garbage(random, *size);
                    expect(&first, &second, &third, refusal.map_or(Ok(5), Err));
                }
            });
        }
    }
}

/// Each number of the header and of the records with each bit flipped, and set to others of note, in either image: what the
/// inspection tells is told.
#[test]
fn damaged_numbers() {
    Cases::new("merge", "damaged_numbers", 809).run(|random| {
        let rows = [(3, random.bits(5, 500)), (64, random.bits(4097, 500)), (1, Vec::new()), (9, random.bits(513, 9))];
        let (image, good) = (image_of(random, &rows), image_of(random, &rows[1..3]));
        let third = garbage(random, needed(&rows, &[]));
        let places = layout::chain(&image).unwrap();
        for at in places.iter().chain([&0]).flat_map(|p| [0, 4, 8, 12].map(|field| p + field)) {
            let was = layout::number(&image, at);
            let others = [0, 1, 2, 64, 65, 4096, LARGEST, LARGEST + 1, u32::MAX.into(), was + 1, was.wrapping_sub(1)];
            for value in (0..32).map(|bit| was ^ 1 << bit).chain(others) {
                let mut bad = image.clone();
                layout::store(&mut bad, at, value);
                let inspected = inspect(&bad);
                for (first, second) in [(&bad, &good), (&good, &bad), (&bad, &bad)] {
                    let told = compare(first, second, &third).0;
                    assert!(inspected.is_ok() || told == inspected, "{value} at {at}: {told:?}, not {inspected:?}");
                }
            }
        }
    });
}

/// Images cut off at each byte of the header and of the records' first numbers, and around their ends.
#[test]
fn images_cut_short() {
    Cases::new("merge", "images_cut_short", 810).run(|random| {
        let rows = [(3, random.bits(5, 500)), (64, random.bits(4097, 500)), (1, Vec::new())];
        let (image, good) = (image_of(random, &rows), image_of(random, &rows[..1]));
        let third = garbage(random, needed(&rows, &[]));
        let mut sizes: Vec<usize> = (0..=17).collect();
        for at in layout::chain(&image).unwrap() {
            let end = at + layout::part(&image, at).len();
            sizes.extend((at - 1..at + 18).chain(end - 2..end + 2).filter(|size| *size <= image.len()));
        }
        for size in sizes {
            let cut = &image[..size];
            let wanted = inspect(cut).map(|_| 3);
            expect(cut, &good, &third, wanted);
            expect(&good, cut, &third, wanted);
            expect(cut, cut, &third, wanted);
        }
    });
}

/// Of no bytes the pointer may be null: 10 of the first image, of the second, 13.
#[test]
fn no_bytes() {
    let (empty, mut third) = ([[0, 0, 0, 0, 1, 0, 0, 0, 0, 0, 0, 0, 0, 0, 0, 0]; 2], [0x77; 16]);
    let (x, y, to) = (empty[0].as_ptr(), empty[1].as_ptr(), third.as_mut_ptr());
    // SAFETY: nothing is lent by a null pointer; else the pointers are to 16 bytes, which live through the call.
    let told = unsafe {
        [
            image_merge(null(), 0, null(), 0, null_mut(), 0),
            image_merge(null(), 0, y, 16, to, 16),
            image_merge(x, 16, null(), 0, to, 16),
            image_merge(x, 16, y, 16, null_mut(), 0),
        ]
    };
    assert_eq!(told.map(answer), [Err(Unsound), Err(Unsound), Err(Unsound), Err(NoRoom)]);
    assert_eq!(third, [0x77; 16]);
}

// ---- the largest

/// Merges wherever the buffers lie.
fn merge_at(first: &[u8], second: &[u8], third: &mut [u8]) -> Answer {
    let (to, room) = (third.as_mut_ptr(), third.len());
    // SAFETY: the pointers are to as many bytes as are named, which live through the call.
    answer(unsafe { image_merge(first.as_ptr(), first.len(), second.as_ptr(), second.len(), to, room) })
}

/// An image of these rows without gaps.
fn packed(rows: &[&Frozen]) -> Vec<u8> {
    layout::image(&rows.iter().map(|row| (0, row.0, row.1.clone())).collect::<Vec<_>>(), 0)
}

/// 2^32 bytes are the most of an image, which has a row at its very end. Bytes that no call touches take no memory.
#[test]
fn largest_images() {
    let [a, b, c] = &[(3, text("01010")), (8, vec![true; 700]), (9, vec![false; 4097])];
    let small = packed(&[b, c]);
    let mut large = vec![0u8; MOST_BYTES + 1];
    let last = MOST_BYTES - layout::size(length(&b.1));
    large[..16].copy_from_slice(&[1, 0, 0, 0, 1, 0, 0, 0, 0, 0, 0, 0, 0, 0, 0, 0]);
    large[16..560].copy_from_slice(&layout::record(last as u64 / 16, a.0, &a.1));
    large[last..MOST_BYTES].copy_from_slice(&layout::record(0, b.0, &b.1));
    let mut third = vec![0x77; packed(&[a, b, c]).len()];
    for size in [MOST_BYTES - 1, MOST_BYTES + 1] {
        assert_eq!(merge_at(&large[..size], &small, &mut third), Err(Unsound));
        assert_eq!(merge_at(&small, &large[..size], &mut third), Err(Unsound));
    }
    assert!(third.iter().all(|b| *b == 0x77));
    assert_eq!(merge_at(&large[..MOST_BYTES], &small, &mut third), Ok(3));
    assert_eq!(third, packed(&[a, b, c]));
    assert_eq!(merge_at(&small, &large[..MOST_BYTES], &mut third), Ok(3));
    assert_eq!(third, packed(&[b, c, a]));
}

/// 2^32 bytes are the most of a third buffer too. That it has more is judged last.
#[test]
fn largest_third_buffers() {
    let [a, b, c] = &[(3, text("01010")), (8, vec![true; 700]), (3, text("01100"))];
    let images = [&[a][..], &[b, a], &[b, c]].map(packed);
    let (mut broken, mut wrong) = (images[0].clone(), images[0].clone());
    broken[4] = 2;
    wrong[28] = 3;
    let wanted = packed(&[a, b]);
    let mut third = vec![0u8; MOST_BYTES + 1];
    let marks = [0, 15, 16, wanted.len(), MOST_BYTES - 1, MOST_BYTES];
    for at in marks {
        third[at] = 0xee;
    }
    for (first, second, refusal) in [
        (&images[0], &images[1], NoRoom),
        (&images[0], &images[2], Conflict),
        (&images[2], &broken, Unsound),
        (&wrong, &images[2], WrongRow),
    ] {
        assert_eq!(merge_at(first, second, &mut third), Err(refusal));
        assert_eq!(marks.map(|at| third[at]), [0xee; 6]);
    }
    assert_eq!(merge_at(&images[0], &images[1], &mut third[..MOST_BYTES]), Ok(2));
    assert_eq!(third[..wanted.len()], wanted);
    assert_eq!(marks.map(|at| third[at])[3..], [0xee; 3]);
}

/// The record of a row of the greatest length, all zeros but for one of its last eight strokes: no one stands before the last
/// part, so that all entries are zeros.
fn longest(label: u64, last: u8) -> Vec<u8> {
    let mut record = vec![0; layout::size(LARGEST)];
    layout::store(&mut record, 4, label);
    layout::store(&mut record, 8, LARGEST);
    layout::store(&mut record, 12, 1);
    *record.last_mut().unwrap() = last;
    record
}

/// Two rows of the greatest length in each image, one of them in both; and one that differs in its last byte alone.
#[test]
fn longest_rows() {
    let size = layout::size(LARGEST);
    let image = |records: [Vec<u8>; 2]| {
        let mut bytes = [vec![1, 0, 0, 0, 1, 0, 0, 0, 0, 0, 0, 0, 0, 0, 0, 0], records.concat()].concat();
        layout::store(&mut bytes, 16, (16 + size as u64) / 16);
        bytes
    };
    let first = image([longest(2, 0x80), longest(1, 0x10)]);
    let second = image([longest(1, 0x10), longest(64, 1)]);
    let other = image([longest(64, 1), longest(1, 0x20)]);
    let mut third = vec![0x77; 16 + 3 * size + 1];
    assert_eq!(merge(&first, &other, &mut third), Err(Conflict));
    assert_eq!(merge(&other, &first, &mut third), Err(Conflict));
    assert_eq!(merge(&first, &second, &mut third[..15 + 3 * size]), Err(NoRoom));
    assert!(third.iter().all(|b| *b == 0x77));
    assert_eq!(merge(&first, &second, &mut third), Ok(3));
    let mut wanted = [first, longest(64, 1), vec![0x77]].concat();
    layout::store(&mut wanted, 16 + size, (16 + 2 * size as u64) / 16);
    assert!(third == wanted);
}

// ---- any images

/// A second list of rows: of the first's some, at times altered, and others; in any order.
fn some_second(random: &mut Random, first: &[Frozen]) -> Vec<Frozen> {
    let mut list: Vec<Frozen> = first.iter().filter(|_| random.below(2) == 0).cloned().collect();
    for label in labels(random, 3) {
        if first.iter().all(|row| row.0 != label) {
            list.push((label, some_bits(random)));
        }
    }
    if random.below(3) == 0 && !list.is_empty() {
        let row = random.below(list.len());
        let others = unequal(random, &list[row].1);
        list[row].1.clone_from(&others[random.below(others.len())]);
    }
    shuffled(random, &list)
}

/// Changes a byte at times: of the header or of the first numbers of a record, of a row's ones, entries or padding, or any.
fn disturb(random: &mut Random, image: &mut [u8]) {
    match random.below(8) {
        0 => change_numbers(random, image, 1),
        1 => spoil_row(random, image),
        2 => image[random.below(image.len())] ^= 1 << random.below(8),
        _ => {}
    }
}

/// Images and third buffers drawn at random: the merge tells all that it can.
#[test]
fn any_images() {
    let (mut cases, mut tally) = (Cases::new("merge", "any_images", 811), Tally::default());
    for _ in 0..6000 {
        cases.run(|random| {
            let number = random.below(6);
            let first = some_rows(random, number);
            let second = some_second(random, &first);
            let end = needed(&first, &second);
            let [mut first, mut second] = [first, second].map(|rows| image_of(random, &rows));
            disturb(random, &mut first);
            disturb(random, &mut second);
            let size = [end, end + random.below(40), end - 1, random.below(end)][random.below(4)];
            let third = garbage(random, size);
            let (told, result) = compare(&first, &second, &third);
            tally.note_merge(told);
            tally.note_merge(compare(&second, &first, &third).0);
            if told.is_ok() && random.below(50) == 0 {
                compare_readings(random, &first, &second, &result);
            }
        });
    }
    if cases.all() {
        tally.expect_merges("any images");
    }
    tally.print(&format!("any images, seed {}", cases.seed()));
}
