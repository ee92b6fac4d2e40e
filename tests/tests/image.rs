//! The calls on an image, against the plain model of them and of the layout.
use strip_tests::borders::{totals, FAR, LABELS, LARGEST, MOST_BYTES, SIZES, SMALL, VALUES, WIDE};
use strip_tests::cases::{at_call, Cases};
use strip_tests::draw::{damage, positions};
use strip_tests::ffi;
use strip_tests::image::{
    clear, freeze, get, inspect, open, opened_get, opened_rank, opened_select, rank, record_size, row_get, row_label,
    row_length, row_rank, row_select, rows, select,
};
use strip_tests::layout::{self, Row};
use strip_tests::model::{self, length, text, words_of};
use strip_tests::random::Random;
use strip_tests::refusal::{answer, Answer, Refusal};
use strip_tests::Handle;
use Refusal::*;

/// The lengths of rows: the small borders, and rows of more than one superblock.
fn lengths() -> impl Iterator<Item = u64> {
    SMALL.into_iter().chain([8192, 40_000])
}

// ---- one call, or the three readings, against the model

/// Look, count and find at v and i, as answered on a row. On a wrong row a count may be any up to i, a find any position
/// below the length or 6, and either 15.
fn compare(row: &Row, v: u64, i: u64, [looked, counted, found]: [Answer; 3]) {
    let n = length(&row.bits);
    assert_eq!(looked, model::get(&row.bits, i), "look({i}) of {n}");
    if row.right || v > 1 || i > n {
        assert_eq!(counted, model::rank(&row.bits, v, i), "count({v}, {i}) of {n}");
    } else {
        let allowed = counted == Err(WrongRow) || counted.is_ok_and(|count| count <= i);
        assert!(allowed, "count({v}, {i}) of {n}: {counted:?}");
    }
    if row.right || v > 1 || i >= n {
        assert_eq!(found, model::select(&row.bits, v, i), "find({v}, {i}) of {n}");
    } else {
        let refused = found == Err(NotFound) || found == Err(WrongRow);
        assert!(refused || found.is_ok_and(|p| p < n), "find({v}, {i}) of {n}: {found:?}");
    }
}

/// The three readings of a row's part at some positions.
fn compare_part(part: &[u8], row: &Row, positions: &[u64]) {
    let n = length(&row.bits);
    for v in VALUES {
        for &i in positions {
            compare(row, v, i, [get(part, n, i), rank(part, n, v, i), select(part, n, v, i)]);
        }
    }
}

/// The three readings of a label's row at some positions, and those of the row opened, which answer the same.
fn compare_row(image: &[u8], label: u64, positions: &[u64]) {
    let row = layout::row(image, label);
    for v in VALUES {
        for &i in positions {
            let got = [row_get(image, label, i), row_rank(image, label, v, i), row_select(image, label, v, i)];
            assert_eq!(opened(image, label, v, i), got, "v {v}, position {i} of label {label}, opened");
            match &row {
                Ok(row) => compare(row, v, i, got),
                Err(refusal) => assert_eq!(got, [Err(*refusal); 3], "label {label}"),
            }
        }
    }
}

/// freeze(label): the answer, every byte, and one record more in the chain.
fn compare_freeze(image: &mut [u8], (h, lent): (Handle, &[bool]), label: u64) -> Answer {
    let mut wanted = image.to_vec();
    let mut places = layout::chain(image);
    let told = layout::freeze(h, lent, &mut wanted, label);
    assert_eq!(freeze(h, &words_of(lent), image, label), told, "label {label} under {h:?}, {} bytes", image.len());
    assert!(image == wanted, "bytes of label {label} under {h:?}");
    if let Ok(unit) = told {
        places.as_mut().unwrap().push(16 * unit as usize);
    }
    assert_eq!(layout::chain(image), places, "chain with label {label} under {h:?}");
    told
}

/// Inspect, the listing of the rows, and no row past them.
fn compare_rows(image: &[u8]) {
    assert_eq!(inspect(image), layout::inspect(image), "inspect of {} bytes", image.len());
    let sound = layout::rows(image);
    let past = if sound.is_some() { LabelAbsent } else { Unsound };
    let wanted = sound.unwrap_or_default();
    for k in FAR.into_iter().chain([1, 2, WIDE - 2].map(|more| wanted.len() as u64 + more)) {
        assert_eq!(row_label(image, k), Err(past), "row {k} of {}", wanted.len());
    }
    assert_eq!(rows(image), (wanted, past));
}

/// Inspect, the rows; then opening, the row's length, the readings and a freeze for some labels. The image stays as it is.
fn compare_all(image: &[u8], labels: &[u64]) {
    let strip = text("0110").repeat(128);
    compare_rows(image);
    for &label in labels {
        assert_eq!(row_length(image, label), layout::row_length(image, label), "length of label {label}");
        assert_eq!(open(image, label), layout::open(image, label), "label {label}");
        compare_row(image, label, &[0, 4, 600, 5000]);
        let _ = compare_freeze(&mut image.to_vec(), (Handle::new(512, 7), &strip), label);
    }
}

// ---- what they are called on

/// A strip with anything past its length, under any total.
fn strip(random: &mut Random, capacity: u64, length: u64, share: usize) -> (Handle, Vec<bool>) {
    let lent = [random.bits(length, share), random.bits(capacity - length, 500)].concat();
    (Handle::new(capacity, length).with(random.number_below(length + 1)), lent)
}

/// An empty chain and then a pattern.
fn cleared(size: usize) -> Vec<u8> {
    let mut image = vec![0x77; size];
    assert_eq!(clear(&mut image), Ok(16));
    image
}

/// Four rows with gaps, in an image with so many units after the last.
fn gapped(random: &mut Random, spare: usize) -> Vec<u8> {
    let (few, many, thin) = (random.bits(5, 500), random.bits(4097, 500), random.bits(513, 9));
    layout::image(&[(0, 3, few), (2, 64, many), (0, 1, Vec::new()), (5, 9, thin)], spare)
}

// ---- clear; an example

#[test]
fn clear_writes_a_header() {
    let (short, enough): (Vec<usize>, Vec<usize>) = SIZES.into_iter().partition(|size| *size < 16);
    for size in short {
        let mut bytes = vec![0x77; size];
        assert_eq!(clear(&mut bytes), Err(NoRoom));
        assert!(bytes.iter().all(|&b| b == 0x77));
    }
    for size in enough {
        let mut bytes = vec![0x77; size];
        assert_eq!(clear(&mut bytes), Ok(16));
        assert_eq!(bytes[..16], [0, 0, 0, 0, 1, 0, 0, 0, 0, 0, 0, 0, 0, 0, 0, 0]);
        assert!(bytes[16..].iter().all(|&b| b == 0x77));
        assert_eq!(open(&bytes, 1), Err(LabelAbsent));
        assert_eq!((inspect(&bytes), row_label(&bytes, 0)), (Ok(0), Err(LabelAbsent)));
    }
}

#[test]
fn the_strip_01010_as_label_3() {
    let mut bytes = vec![0u8; 560];
    bytes[0] = 1;
    bytes[4] = 1;
    bytes[20] = 3;
    bytes[24] = 5;
    bytes[28] = 2;
    for (at, b) in [(37, 0x20), (39, 2), (40, 0x20), (42, 2), (43, 0x20), (45, 2), (46, 0x20), (48, 0x0a)] {
        bytes[at] = b;
    }
    assert_eq!(bytes, layout::image(&[(0, 3, text("01010"))], 0));
    let (h, words) = (Handle::new(512, 5), [10, 0, 0, 0, 0, 0, 0, 0]);
    let mut image = vec![0; 560];
    assert_eq!(clear(&mut image), Ok(16));
    assert_eq!(freeze(h, &words, &mut image[..559], 3), Err(NoRoom));
    assert_eq!(image[4], 1);
    assert_eq!(image.iter().filter(|&&b| b != 0).count(), 1);
    assert_eq!(freeze(h, &words, &mut image, 3), Ok(1));
    assert_eq!(image, bytes);
    assert_eq!(open(&bytes, 3), Ok(16));
    assert_eq!((inspect(&bytes), record_size(5)), (Ok(1), Ok(544)));
    assert_eq!(rows(&bytes), (vec![(3, 5)], LabelAbsent));
    let part = &bytes[16..];
    for (i, (bit, ones)) in (0..).zip([(0, 0), (1, 0), (0, 1), (1, 1), (0, 2)]) {
        assert_eq!((get(part, 5, i), row_get(&bytes, 3, i)), (Ok(bit), Ok(bit)));
        assert_eq!((rank(part, 5, 1, i), row_rank(&bytes, 3, 1, i)), (Ok(ones), Ok(ones)));
    }
    let ones = [(1, 0, Ok(1)), (1, 1, Ok(3)), (1, 2, Err(NotFound))];
    let zeros = [(0, 0, Ok(0)), (0, 1, Ok(2)), (0, 2, Ok(4)), (0, 3, Err(NotFound))];
    for (v, k, p) in ones.into_iter().chain(zeros) {
        assert_eq!((select(part, 5, v, k), row_select(&bytes, 3, v, k)), (p, p));
    }
    compare_row(&bytes, 3, &[0, 1, 2, 3, 4, 5, 6]);
}

// ---- a row's part

#[test]
fn right_rows_read_as_strips() {
    let mut cases = Cases::new("image", "right_rows_read_as_strips", 71);
    for length in lengths() {
        for share in [0, 3, 500, 1000] {
            cases.run(|random| {
                let bits = random.bits(length, share);
                let part = layout::record(random.number_below(WIDE), 1 + random.number_below(64), &bits);
                let row = Row::new(&part);
                assert!(row.right && row.bits == bits);
                compare_part(&part, &row, &positions(random, &bits, 40));
            });
        }
    }
}

/// The three readings of a part are refused as not one record of length n, whatever their arguments.
fn no_part(part: &[u8], n: u64) {
    for v in VALUES {
        for i in [0, 5000].into_iter().chain(FAR) {
            assert_eq!(get(part, n, i), Err(Unsound));
            assert_eq!(rank(part, n, v, i), Err(Unsound));
            assert_eq!(select(part, n, v, i), Err(Unsound));
        }
    }
}

#[test]
fn a_part_is_exactly_one_record() {
    Cases::new("image", "a_part_is_exactly_one_record", 73).run(|random| {
        let part = layout::record(7, 5, &random.bits(5000, 500));
        for n in [0, 4999, 5001, 5000 + WIDE].into_iter().chain(FAR) {
            no_part(&part, n);
        }
        for size in [0, 1, 15, 16, part.len() - 1] {
            no_part(&part[..size], 5000);
        }
        no_part(&[&part[..], &[0]].concat(), 5000);
        for label in [0, 65, u32::MAX.into()] {
            let mut bad = part.clone();
            layout::store(&mut bad, 4, label);
            no_part(&bad, 5000);
        }
        for length in [0, 4096, 8193, LARGEST, LARGEST + 1, u32::MAX.into()] {
            let mut bad = part.clone();
            layout::store(&mut bad, 8, length);
            no_part(&bad, length);
        }
    });
}

#[test]
fn wrong_rows_stay_within_bounds() {
    let mut cases = Cases::new("image", "wrong_rows_stay_within_bounds", 74);
    for length in [0, 1, 512, 4097, 20_000] {
        for round in 0..100 {
            cases.run(|random| {
                let right = layout::record(0, 2, &random.bits(length, 500));
                let mut part = right.clone();
                for _ in 0..1 + round % 40 {
                    damage(random, &mut part);
                }
                let row = Row::new(&part);
                assert_eq!(row.right, part == right);
                compare_part(&part, &row, &positions(random, &row.bits, 10));
            });
        }
    }
}

// ---- freeze, and rows by their labels

#[test]
fn freeze_of_each_length() {
    let mut cases = Cases::new("image", "freeze_of_each_length", 76);
    for length in lengths() {
        let least = length.next_multiple_of(512).max(512);
        for capacity in [least, length.next_multiple_of(4096).max(4096), least + 4608] {
            for share in [0, 3, 500, 1000] {
                cases.run(|random| {
                    let (h, lent) = strip(random, capacity, length, share);
                    let label = 1 + random.number_below(64);
                    let mut image = cleared(16 + layout::size(length) + random.below(40));
                    assert_eq!(compare_freeze(&mut image, (h, &lent), label), Ok(1));
                    let bits = &lent[..length as usize];
                    assert!(layout::row(&image, label).unwrap().bits == bits);
                    assert_eq!((inspect(&image), row_length(&image, label)), (Ok(1), Ok(length)));
                    compare_row(&image, label, &positions(random, bits, 10));
                });
            }
        }
    }
}

/// Under any total up to the length the same bytes are written, with the ones of the words; above it none.
#[test]
fn freeze_under_any_total() {
    let mut cases = Cases::new("image", "freeze_under_any_total", 89);
    for length in SMALL {
        for share in [0, 3, 500, 1000] {
            cases.run(|random| {
                let (h, lent) = strip(random, 4608, length, share);
                let image = layout::image(&[(1, 3, text("0110"))], 67);
                let ones = model::number_of(&lent[..length as usize], true);
                let mut right = image.clone();
                assert!(compare_freeze(&mut right, (h.with(ones), &lent), 4).is_ok());
                for total in totals(h, ones) {
                    let mut given = image.clone();
                    let told = compare_freeze(&mut given, (h.with(total), &lent), 4);
                    assert_eq!(told.err(), (total > length).then_some(BadHandle), "total {total} of {length}");
                    assert!(given == if total > length { &image[..] } else { &right }, "total {total} of {length}");
                }
            });
        }
    }
}

/// Every length up to a bit past two superblocks: a strip at unit 1, in as few words as hold it, and its opposite after it, in
/// more. Ones stand past the length, and in every byte that a record is written to and after it: a bit too many or a byte left
/// out shows, and in one of the two a bit too few.
#[test]
fn freeze_of_every_length() {
    let mut cases = Cases::new("image", "freeze_of_every_length", 87);
    for length in 0..=8193 {
        cases.run(|random| {
            let bits = random.bits(length, 500);
            let opposite: Vec<bool> = bits.iter().map(|b| !b).collect();
            let least = length.next_multiple_of(512).max(512);
            let mut image = vec![0xff; 16 + 2 * layout::size(length) + 23];
            assert_eq!(clear(&mut image), Ok(16));
            for (label, capacity, mut lent) in [(1, least, bits), (2, least + 512 + 4096, opposite)] {
                lent.resize(capacity as usize, true);
                assert!(compare_freeze(&mut image, (Handle::new(capacity, length), &lent), label).is_ok());
            }
        });
    }
}

/// A strip of the greatest length, most of it ones. It repeats after an odd number of bits, so that words taken from a power of
/// two too near or too far show.
#[test]
fn the_longest_strip_frozen() {
    Cases::new("image", "the_longest_strip_frozen", 88).run(|random| {
        let mut lent = random.bits(4099, 900).repeat(LARGEST as usize / 4099 + 1);
        lent.truncate(LARGEST as usize);
        let mut image = cleared(16 + layout::size(LARGEST));
        let h = Handle::new(LARGEST, LARGEST);
        assert_eq!(compare_freeze(&mut image, (h, &lent), 64), Ok(1));
    });
}

#[test]
fn a_long_strip_frozen_and_read() {
    Cases::new("image", "a_long_strip_frozen_and_read", 72).run(|random| {
        let length = 16_777_216;
        let (h, lent) = strip(random, length, length, 400);
        let mut image = cleared(16 + layout::size(length));
        assert_eq!(compare_freeze(&mut image, (h, &lent), 9), Ok(1));
        let row = layout::row(&image, 9).unwrap();
        assert!(row.right && row.bits == lent);
        let some = positions(random, &lent, 10);
        compare_part(&image[16..], &row, &some);
        compare_row(&image, 9, &some);
        assert_eq!(rows(&image), (vec![(9, length)], LabelAbsent));
        assert_eq!(inspect(&image), Ok(1));
    });
}

/// Images of no row, of four with gaps, and of an empty one.
fn bases(random: &mut Random) -> [Vec<u8>; 3] {
    [cleared(16), gapped(random, 0), layout::image(&[(3, 5, Vec::new())], 0)]
}

/// After no row, after four with gaps and after an empty one: no room, a byte too few, just enough, and more.
#[test]
fn freeze_needs_room() {
    let mut cases = Cases::new("image", "freeze_needs_room", 77);
    for base in 0..3 {
        for length in [0, 1, 4096, 4097, 20_000] {
            let size = layout::size(length);
            for room in [0, size - 1, size, size + 1, size + 100] {
                cases.run(|random| {
                    let mut image = bases(random)[base].clone();
                    let told = if room < size { Err(NoRoom) } else { Ok(image.len() as u64 / 16) };
                    image.resize(image.len() + room, 0xdd);
                    let (h, lent) = strip(random, 20_480, length, 500);
                    assert_eq!(compare_freeze(&mut image, (h, &lent), 7), told);
                    for label in [1, 3, 5, 7, 9, 64] {
                        compare_row(&image, label, &positions(random, &lent[..length as usize], 0));
                    }
                });
            }
        }
    }
}

#[test]
fn freeze_takes_labels_1_to_64_once() {
    let mut cases = Cases::new("image", "freeze_takes_labels_1_to_64_once", 78);
    for label in LABELS {
        cases.run(|random| {
            let (h, lent) = strip(random, 512, 512, 500);
            let good = (1..=64).contains(&label);
            let mut image = cleared(1104);
            let [first, second] = if good { [Ok(1), Err(LabelPresent)] } else { [Err(BadLabel); 2] };
            assert_eq!(compare_freeze(&mut image, (h, &lent), label), first);
            assert_eq!(compare_freeze(&mut image, (h, &lent), label), second);
            compare_all(&image, &LABELS);
            compare_all(&gapped(random, 40), &LABELS);
        });
    }
}

/// Each set of faults at once: the first decides.
#[test]
fn freeze_refuses_in_order() {
    let order = [BadHandle, WordCount, Unsound, BadLabel, LabelPresent, NoRoom];
    let mut cases = Cases::new("image", "freeze_refuses_in_order", 79);
    for faults in 0..64usize {
        let has = |refusal: Refusal| faults >> order.iter().position(|&r| r == refusal).unwrap() & 1 == 1;
        let bad =
            [(1025, 0, 0), (0, 0, 0), (1536, 1537, 0), (u64::MAX - 511, 0, 0), (1024, 1000, 1001), (1024, 0, u64::MAX)];
        let handles = if has(BadHandle) { &bad[..] } else { &[(1024, 1000, 1000)] };
        let present = if has(LabelPresent) { 3 } else { 4 };
        let labels = if has(BadLabel) { &[0, 65, WIDE, u64::MAX][..] } else { &[present] };
        let mut image = layout::image(&[(1, 3, text("0110"))], if has(NoRoom) { 33 } else { 34 });
        if has(Unsound) {
            image[9] = 1;
        }
        let told = order.into_iter().find(|&refusal| has(refusal)).map_or(Ok(36), Err);
        cases.run(|random| {
            let bits = random.bits(1088, 500);
            for &(capacity, length, total) in handles {
                for &label in labels {
                    let lent = &bits[..if has(WordCount) { [960, 1088][label as usize % 2] } else { 1024 }];
                    let h = Handle { capacity, length, total };
                    let answer = compare_freeze(&mut image.clone(), (h, lent), label);
                    assert_eq!(answer, told, "faults {faults:06b}");
                }
            }
        });
    }
}

/// Strips frozen one after another, till one does not fit.
#[test]
fn frozen_rows_read_back() {
    let mut cases = Cases::new("image", "frozen_rows_read_back", 80);
    for _ in 0..30 {
        cases.run(|random| {
            let mut image = cleared(16 + random.below(30_000));
            let frozen = fill_image(random, &mut image);
            let listed = frozen.iter().map(|(label, bits)| (*label, length(bits))).collect();
            assert_eq!(rows(&image), (listed, LabelAbsent));
            assert_eq!(inspect(&image), Ok(frozen.len() as u64));
            for (label, bits) in frozen {
                let row = layout::row(&image, label).unwrap();
                assert!(row.right && row.bits == bits);
                compare_row(&image, label, &positions(random, &bits, 30));
            }
            compare_all(&image, &LABELS);
        });
    }
}

/// Freezes drawn strips till one does not fit: the rows frozen.
fn fill_image(random: &mut Random, image: &mut [u8]) -> Vec<(u64, Vec<bool>)> {
    let mut rows = Vec::new();
    for number in 0.. {
        at_call(number);
        let capacity = 512 * (1 + random.number_below(18));
        let (length, share) = (random.number_below(capacity + 1), random.below(1001));
        let (h, lent) = strip(random, capacity, length, share);
        let label = random.number_below(67);
        match compare_freeze(image, (h, &lent), label) {
            Ok(_) => rows.push((label, lent[..length as usize].to_vec())),
            Err(NoRoom) => break,
            Err(_) => {}
        }
    }
    rows
}

/// The rows beside a wrong one read as ever, and a further row is frozen after them. An odd number of flips leaves a row
/// wrong.
#[test]
fn wrong_rows_beside_right_ones() {
    let mut cases = Cases::new("image", "wrong_rows_beside_right_ones", 81);
    for round in 0..80 {
        cases.run(|random| {
            let mut image = gapped(random, 70);
            let wrong = layout::chain(&image).unwrap()[round % 4];
            let end = wrong + layout::part(&image, wrong).len();
            for _ in 0..[1, 3][round / 4 % 2] {
                damage(random, &mut image[wrong..end]);
            }
            let (h, lent) = strip(random, 5120, 5000, 500);
            assert!(compare_freeze(&mut image, (h, &lent), 7).is_ok());
            for at in layout::chain(&image).unwrap() {
                let label = layout::number(&image, at + 4);
                let row = layout::row(&image, label).unwrap();
                assert_eq!(row.right, at != wrong, "label {label}");
                compare_row(&image, label, &positions(random, &row.bits, 30));
            }
            assert_eq!(inspect(&image), Err(WrongRow));
            compare_rows(&image);
        });
    }
}

// ---- images that are no sound chain, or another than was written

#[test]
fn small_images() {
    for size in SIZES {
        for byte in [0, 1, 0x77] {
            compare_all(&vec![byte; size], &LABELS);
        }
    }
    let (h, lent) = (Handle::new(512, 0), vec![true; 512]);
    for size in [0, 1, 15] {
        let mut image = vec![0; size];
        assert_eq!(open(&image, 1), Err(Unsound));
        assert_eq!(row_get(&image, 1, 0), Err(Unsound));
        assert_eq!(compare_freeze(&mut image, (h, &lent), 1), Err(Unsound));
    }
    for (size, told) in [(16, Err(NoRoom)), (17, Err(NoRoom)), (31, Err(NoRoom)), (32, Ok(1))] {
        let mut image = cleared(size);
        compare_all(&image, &LABELS);
        assert_eq!(row_get(&image, 1, 0), Err(LabelAbsent));
        assert_eq!(compare_freeze(&mut image, (h, &lent), 1), told);
    }
}

/// Each number of the header and of the records with each bit flipped, and set to others of note.
#[test]
fn damaged_numbers() {
    let mut cases = Cases::new("image", "damaged_numbers", 75);
    for spare in [0, 32, 33] {
        cases.run(|random| {
            let image = gapped(random, spare);
            compare_all(&image, &LABELS);
            let places = layout::chain(&image).unwrap();
            for at in places.iter().chain([&0]).flat_map(|p| [0, 4, 8, 12].map(|field| p + field)) {
                let was = layout::number(&image, at);
                let near = [was.wrapping_sub(1), was + 1, was + 4096, 0, 1, 2, 64, 65, 4096];
                let far = [LARGEST, LARGEST + 1, u32::MAX.into()];
                let flipped = (0..32).map(|bit| was ^ 1 << bit);
                for value in flipped.chain(near).chain(far) {
                    let mut bad = image.clone();
                    layout::store(&mut bad, at, value);
                    compare_all(&bad, &[1, 9, 64, 65]);
                }
            }
        });
    }
}

/// Each index set to each unit: backward, onto itself, into a record, into a gap, at and past the end. Every unit that is
/// not a record's first is an empty record, so that overlapping records and loops are met.
#[test]
fn every_index_to_every_unit() {
    let mut cases = Cases::new("image", "every_index_to_every_unit", 82);
    for next in [Some(0), Some(1), Some(60), None] {
        cases.run(|random| {
            let mut image = gapped(random, 3);
            let places = layout::chain(&image).unwrap();
            let units = image.len() / 16;
            let next = next.unwrap_or(units as u64);
            for unit in (1..units).filter(|unit| !places.contains(&(16 * unit))) {
                image[16 * unit..16 * unit + 16].copy_from_slice(&layout::record(next, 7, &[]));
            }
            for &link in [0].iter().chain(&places) {
                for unit in 0..units as u64 + 2 {
                    let mut bad = image.clone();
                    layout::store(&mut bad, link, unit);
                    compare_all(&bad, &[7, 9]);
                }
            }
        });
    }
}

/// Images cut off around the start and the end of each record, with the chain going on there and ending there.
#[test]
fn images_cut_short() {
    Cases::new("image", "images_cut_short", 83).run(|random| {
        let image = gapped(random, 40);
        for at in layout::chain(&image).unwrap() {
            let label = layout::number(&image, at + 4);
            let end = at + layout::part(&image, at).len();
            let mut last = image.clone();
            layout::store(&mut last, at, 0);
            for size in [at - 1, at, at + 1, at + 15, at + 16, at + 17, end - 1, end, end + 1] {
                compare_all(&image[..size], &LABELS);
                compare_all(&last[..size], &LABELS);
            }
            assert_eq!(open(&last[..end - 1], label), Err(Unsound));
            assert_eq!(open(&last[..end], label), Ok(at as u64));
            compare_row(&last[..end], label, &positions(random, &Row::new(&last[at..end]).bits, 10));
        }
    });
}

/// A record of the greatest length, and one of a bit more, each inside the image.
#[test]
fn the_longest_row() {
    let mut image = layout::image(&[(0, 5, Vec::new())], 33 * 32_769 + 1);
    let (h, lent) = (Handle::new(512, 7), text("10").repeat(256));
    layout::store(&mut image, 24, LARGEST + 1);
    assert_eq!(open(&image, 5), Err(Unsound));
    assert_eq!(row_get(&image, 5, 0), Err(Unsound));
    assert_eq!(compare_freeze(&mut image, (h, &lent), 6), Err(Unsound));
    assert_eq!([inspect(&image), row_length(&image, 5), row_label(&image, 0)], [Err(Unsound); 3]);
    layout::store(&mut image, 24, LARGEST);
    assert_eq!(inspect(&image), Err(WrongRow));
    assert_eq!(rows(&image), (vec![(5, LARGEST)], LabelAbsent));
    assert_eq!(open(&image, 5), Ok(16));
    assert_eq!(row_get(&image, 5, LARGEST - 1), Ok(1));
    assert_eq!(row_get(&image, 5, LARGEST), Err(Position));
    assert_eq!(compare_freeze(&mut image, (h, &lent), 6), Ok(2 + 33 * 32_768));
    compare_row(&image, 6, &[3]);
    assert_eq!(rows(&image), (vec![(5, LARGEST), (6, 7)], LabelAbsent));
}

/// 2^32 bytes are the most. Bytes that no call touches take no memory.
#[test]
fn the_largest_image() {
    let (most, words) = (MOST_BYTES, [10u64, 0, 0, 0, 0, 0, 0, 0]);
    let mut image = vec![0u8; most + 1];
    let (bytes, w) = (image.as_mut_ptr(), words.as_ptr());
    // SAFETY: the pointers are to at least as many bytes and words as are named.
    unsafe {
        assert_eq!(answer(ffi::image_clear(bytes, most + 1)), Err(NoRoom));
        assert_eq!(*bytes.add(4), 0);
        assert_eq!(answer(ffi::image_clear(bytes, most)), Ok(16));
        assert_eq!(answer(ffi::image_freeze(512, 5, 2, w, 8, bytes, most + 1, 3)), Err(Unsound));
        assert_eq!(answer(ffi::image_freeze(512, 5, 2, w, 8, bytes, most, 3)), Ok(1));
        assert_eq!(answer(ffi::image_row_rank(bytes, most, 3, 1, 5)), Ok(2));
        assert_eq!(answer(ffi::image_row_rank(bytes, most + 1, 3, 1, 5)), Err(Unsound));
        assert_eq!(answer(ffi::image_row_select(bytes, most, 3, 1, 1)), Ok(3));
        assert_eq!(answer(ffi::image_row_select(bytes, most + 1, 3, 1, 1)), Err(Unsound));
        assert_eq!(answer(ffi::image_row_get(bytes, most + 1, 3, 0)), Err(Unsound));
        assert_eq!(answer(ffi::image_open(bytes, most + 1, 3)), Err(Unsound));
        assert_eq!(answer(ffi::image_inspect(bytes, most)), Ok(1));
        assert_eq!(answer(ffi::image_inspect(bytes, most + 1)), Err(Unsound));
        assert_eq!(answer(ffi::image_row_length(bytes, most, 3)), Ok(5));
        assert_eq!(answer(ffi::image_row_length(bytes, most + 1, 3)), Err(Unsound));
        assert_eq!(answer(ffi::image_row_label(bytes, most, 0)), Ok(3));
        assert_eq!(answer(ffi::image_row_label(bytes, most, 1)), Err(LabelAbsent));
        assert_eq!(answer(ffi::image_row_label(bytes, most + 1, 0)), Err(Unsound));
    }
}

/// A record that ends where the largest image ends, after an empty row; with a byte fewer there is no room.
#[test]
fn freeze_at_the_end_of_the_largest_image() {
    let (bits, words) = (text("01010"), [10u64, 0, 0, 0, 0, 0, 0, 0]);
    let mut image = vec![0u8; MOST_BYTES];
    let at = MOST_BYTES - layout::size(5);
    let last = at - 16;
    image[4] = 1;
    layout::store(&mut image, 0, last as u64 / 16);
    image[last..at].copy_from_slice(&layout::record(0, 1, &[]));
    let (bytes, w) = (image.as_mut_ptr(), words.as_ptr());
    // SAFETY: as in `the_largest_image`.
    let told = [MOST_BYTES - 1, MOST_BYTES].map(|size| unsafe { ffi::image_freeze(512, 5, 2, w, 8, bytes, size, 3) });
    assert_eq!(told.map(answer), [Err(NoRoom), Ok(at as u64 / 16)]);
    assert_eq!(layout::chain(&image), Some(vec![last, at]));
    assert_eq!(image[at..], layout::record(0, 3, &bits));
}

#[test]
fn random_images() {
    let mut cases = Cases::new("image", "random_images", 84);
    for _ in 0..1000 {
        cases.run(|random| {
            let size = 16 * random.below(80) + random.below(3);
            let mut bytes: Vec<u8> = (0..size).map(|_| (random.below(4) * (random.below(6) / 5)) as u8).collect();
            compare_all(&bytes, &[1, 3]);
            if size >= 16 {
                bytes[4..16].copy_from_slice(&[1, 0, 0, 0, 0, 0, 0, 0, 0, 0, 0, 0]);
                compare_all(&bytes, &[1, 3]);
            }
        });
    }
}

/// Rows written at random, labels out of range and repeated among them, then a few bytes changed.
#[test]
fn random_chains() {
    let mut cases = Cases::new("image", "random_chains", 85);
    for _ in 0..1000 {
        cases.run(|random| {
            let mut rows = Vec::new();
            for _ in 0..random.below(5) {
                let length = random.number_below(2) * random.number_below(5000);
                rows.push((random.below(3), [1, 2, 3, 4, 9, 63, 64, 65][random.below(8)], random.bits(length, 500)));
            }
            let mut image = layout::image(&rows, random.below(40));
            compare_all(&image, &[1, 9, 64]);
            for _ in 0..3 {
                let at = 16 * random.below(image.len() / 16) + random.below(16);
                image[at] = random.below(70) as u8;
                compare_all(&image, &[1, 9, 64]);
            }
        });
    }
}

/// The three readings of an opened row.
fn opened(image: &[u8], label: u64, v: u64, i: u64) -> [Answer; 3] {
    [opened_get(image, label, i), opened_rank(image, label, v, i), opened_select(image, label, v, i)]
}

/// Look, count and find of both values; the refusal of an opening passes through.
#[test]
fn an_opened_row_reads_as_its_strip() {
    let mut cases = Cases::new("image", "an_opened_row_reads_as_its_strip", 86);
    for v in VALUES {
        cases.run(|random| {
            let rows = [(0, 3, random.bits(5, 500)), (2, 64, random.bits(4097, 500)), (0, 1, Vec::new())];
            let image = layout::image(&rows, 1);
            for (_, label, bits) in &rows {
                let row = layout::row(&image, *label).unwrap();
                assert!(row.right && row.bits == *bits);
                for i in (0..length(bits) + 2).chain(FAR) {
                    compare(&row, v, i, opened(&image, *label, v, i));
                }
            }
            for i in [0, 5000, u64::MAX] {
                for label in [2, 63] {
                    assert_eq!(opened(&image, label, v, i), [Err(LabelAbsent); 3]);
                }
                for label in LABELS.into_iter().filter(|label| ![1, 3, 64].contains(label)) {
                    assert_eq!(opened(&image, label, v, i), [Err(BadLabel); 3]);
                }
                for label in LABELS {
                    for size in [0, 15, 16, image.len() - 17] {
                        assert_eq!(opened(&image[..size], label, v, i), [Err(Unsound); 3]);
                    }
                }
            }
        });
    }
}
